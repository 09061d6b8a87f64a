IMPLEMENTATION MODULE Money;

FROM InOut IMPORT Write, WriteCard;

CONST
  Coins = 100;           (* of one of the currency *)
  PointLength = 3;       (* the characters of the point and the digits behind it *)
  Whole = 10000;         (* hundredths of a per cent *)

PROCEDURE WriteAmount(amount: Amount; width: CARDINAL);
BEGIN
  IF width < PointLength THEN width := PointLength END;
  WriteCard(amount DIV Coins, width - PointLength);
  Write(".");
  WriteCard(amount MOD Coins DIV 10, 0);
  WriteCard(amount MOD 10, 0)
END WriteAmount;

PROCEDURE InterestOn(amount: Amount; rate: CARDINAL): CARDINAL;
(* The product of amount and rate may be no CARDINAL, so the whole ten thousands of the amount and its rest are taken by
   themselves. *)
BEGIN
  RETURN amount DIV Whole * rate + amount MOD Whole * rate DIV Whole
END InterestOn;

END Money.
