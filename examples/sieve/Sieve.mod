MODULE Sieve;
(* The prime numbers below 1000, ten in a line, by the sieve of Eratosthenes. *)

FROM InOut IMPORT WriteCard, WriteLn, WriteString;

CONST
  Limit = 1000;
  InLine = 10;

VAR
  isCrossed: ARRAY [2 .. Limit - 1] OF BOOLEAN;
  number, count: CARDINAL;

PROCEDURE Cross(prime: CARDINAL);
VAR multiple: CARDINAL;
BEGIN
  multiple := prime * prime;
  WHILE multiple < Limit DO
    isCrossed[multiple] := TRUE;
    multiple := multiple + prime
  END
END Cross;

BEGIN
  count := 0;
  FOR number := 2 TO Limit - 1 DO isCrossed[number] := FALSE END;
  FOR number := 2 TO Limit - 1 DO
    IF NOT isCrossed[number] THEN
      WriteCard(number, 4);
      INC(count);
      IF count MOD InLine = 0 THEN WriteLn END;
      Cross(number)
    END
  END;
  WriteLn;
  WriteCard(count, 0);
  WriteString(" primes");
  WriteLn
END Sieve.
