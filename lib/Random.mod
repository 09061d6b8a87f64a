IMPLEMENTATION MODULE Random;

CONST
  Multiplier = 48271;
  Modulus = 2147483647;
  Quotient = Modulus DIV Multiplier;    (* 44488 *)
  Rest = Modulus MOD Multiplier;        (* 3399 *)
  Values = Modulus - 1;                 (* how many numbers the generator has *)
  Half = 65536;                         (* Half * Half is one more than the greatest CARDINAL *)

VAR
  state: CARDINAL;                      (* from 1 to Modulus - 1 *)

PROCEDURE RandomInit(seed: CARDINAL);
BEGIN
  state := seed MOD Modulus;
  IF state = 0 THEN state := 1 END
END RandomInit;

PROCEDURE NextRandom(): CARDINAL;
(* Multiplier * state may be no CARDINAL. Schrage's way around it: with Modulus = Multiplier * Quotient + Rest, and
   state = Quotient * high + low, the product is Modulus * high + Multiplier * low - Rest * high. Modulus * high says
   nothing for the remainder. Multiplier * low is below Modulus, and Rest * high too. *)
VAR
  high, low: CARDINAL;
BEGIN
  high := state DIV Quotient;
  low := state MOD Quotient;
  state := (Multiplier * low + (Modulus - Rest * high)) MOD Modulus;
  RETURN state
END NextRandom;

PROCEDURE Below(bound: CARDINAL): CARDINAL;
(* As RandomCard, for a bound of at most Values. If the greatest numbers were taken too, the first remainders would come
   more often than the last. *)
VAR
  number: CARDINAL;
BEGIN
  REPEAT
    number := NextRandom() - 1
  UNTIL number < Values - Values MOD bound;
  RETURN number MOD bound
END Below;

PROCEDURE RandomCard(bound: CARDINAL): CARDINAL;
VAR
  high, number: CARDINAL;
BEGIN
  IF bound <= Values THEN RETURN Below(bound) END;
  REPEAT
    high := Below(Half);
    number := high * Half + Below(Half)
  UNTIL number < bound;
  RETURN number
END RandomCard;

PROCEDURE RandomInt(bound: INTEGER): INTEGER;
BEGIN
  RETURN VAL(INTEGER, RandomCard(VAL(CARDINAL, bound)))
END RandomInt;

BEGIN
  RandomInit(1)
END Random.
