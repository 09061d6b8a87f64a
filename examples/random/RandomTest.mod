MODULE RandomTest;
(* Tries the library module Random: its first numbers and the ten thousandth, seeds, bounds, and ten thousand throws of a
   die. *)

FROM InOut IMPORT WriteCard, WriteInt, WriteLn, WriteString;
FROM Random IMPORT NextRandom, RandomCard, RandomInit, RandomInt;

CONST
  Faces = 6;
  Throws = 10000;
  InLine = 6;

VAR
  counts: ARRAY [1 .. Faces] OF CARDINAL;

PROCEDURE ShowNext(count: CARDINAL);
(* prints the generator's next numbers *)
VAR
  i: CARDINAL;
BEGIN
  FOR i := 1 TO count DO WriteCard(NextRandom(), 11) END;
  WriteLn
END ShowNext;

PROCEDURE ShowTenThousandth;
(* The authors of the generator give this number, so that each program of it can be tried: 399268537. *)
VAR
  i, number: CARDINAL;
BEGIN
  RandomInit(1);
  FOR i := 1 TO Throws DO number := NextRandom() END;
  WriteString("the ten thousandth:");
  WriteCard(number, 10);
  WriteLn
END ShowTenThousandth;

PROCEDURE ShowSeed(seed: CARDINAL);
(* prints the first numbers after a seed *)
BEGIN
  WriteString("seed ");
  WriteCard(seed, 10);
  WriteString(":");
  RandomInit(seed);
  ShowNext(3)
END ShowSeed;

PROCEDURE ShowBelow(bound: CARDINAL);
(* prints numbers below a bound *)
VAR
  i: CARDINAL;
BEGIN
  WriteString("below ");
  WriteCard(bound, 10);
  WriteString(":");
  FOR i := 1 TO InLine DO WriteCard(RandomCard(bound), 11) END;
  WriteLn
END ShowBelow;

PROCEDURE ShowIntegers;
(* prints INTEGERs from -5 to 5 *)
VAR
  i: CARDINAL;
BEGIN
  WriteString("from -5 to 5:");
  FOR i := 1 TO 20 DO WriteInt(RandomInt(11) - 5, 3) END;
  WriteLn
END ShowIntegers;

PROCEDURE ShowDie;
(* prints how often each face of a die comes *)
VAR
  i, face: CARDINAL;
BEGIN
  FOR face := 1 TO Faces DO counts[face] := 0 END;
  FOR i := 1 TO Throws DO INC(counts[1 + RandomCard(Faces)]) END;
  WriteString("faces of a die:");
  FOR face := 1 TO Faces DO WriteCard(counts[face], 5) END;
  WriteLn
END ShowDie;

BEGIN
  ShowNext(InLine);
  ShowTenThousandth;
  ShowSeed(0);
  ShowSeed(1);
  ShowSeed(1993);
  ShowSeed(2147483647);
  ShowSeed(MAX(CARDINAL));
  RandomInit(7);
  ShowBelow(1);
  ShowBelow(2);
  ShowBelow(100);
  ShowBelow(1500000000);
  ShowBelow(2147483646);
  ShowBelow(2147483647);
  ShowBelow(MAX(CARDINAL));
  ShowIntegers;
  ShowDie
END RandomTest.
