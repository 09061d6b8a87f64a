MODULE Hanoi;
(* The towers of Hanoi: the moves of three discs, and the number of moves of up to ten. *)

FROM InOut IMPORT Write, WriteCard, WriteLn, WriteString;

TYPE
  Peg = (left, middle, right);
  Step = PROCEDURE (Peg, Peg);

VAR
  letters: ARRAY Peg OF CHAR;
  moves, discs: CARDINAL;

PROCEDURE Show(from, to: Peg);
BEGIN
  Write(letters[from]);
  WriteString(" -> ");
  Write(letters[to]);
  WriteLn
END Show;

PROCEDURE Count(from, to: Peg);
BEGIN
  INC(moves)
END Count;

PROCEDURE Move(discs: CARDINAL; from, to, over: Peg; step: Step);
BEGIN
  IF discs > 0 THEN
    Move(discs - 1, from, over, to, step);
    step(from, to);
    Move(discs - 1, over, to, from, step)
  END
END Move;

BEGIN
  letters[left] := "L";
  letters[middle] := "M";
  letters[right] := "R";
  Move(3, left, right, middle, Show);
  FOR discs := 1 TO 10 DO
    moves := 0;
    Move(discs, left, right, middle, Count);
    WriteCard(discs, 3);
    WriteCard(moves, 6);
    WriteLn
  END
END Hanoi.
