MODULE Queens;
(* Eight queens that do not attack each other: the first board, and how many there are. *)

FROM InOut IMPORT Write, WriteCard, WriteLn, WriteString;

CONST
  Size = 8;

TYPE
  Line = [0 .. Size - 1];

VAR
  column: ARRAY Line OF Line;
  isColumn: ARRAY Line OF BOOLEAN;
  isRising, isFalling: ARRAY [0 .. 2 * Size - 2] OF BOOLEAN;
  boards: CARDINAL;

PROCEDURE Clear;
VAR i: CARDINAL;
BEGIN
  FOR i := 0 TO Size - 1 DO isColumn[i] := FALSE END;
  FOR i := 0 TO 2 * Size - 2 DO
    isRising[i] := FALSE;
    isFalling[i] := FALSE
  END;
  boards := 0
END Clear;

PROCEDURE Show;
VAR row, at: Line;
BEGIN
  FOR row := 0 TO Size - 1 DO
    FOR at := 0 TO Size - 1 DO
      IF column[row] = at THEN Write("Q") ELSE Write(".") END
    END;
    WriteLn
  END
END Show;

PROCEDURE Place(row: CARDINAL);
VAR at: Line;
BEGIN
  IF row = Size THEN
    INC(boards);
    IF boards = 1 THEN Show END;
    RETURN
  END;
  FOR at := 0 TO Size - 1 DO
    IF NOT (isColumn[at] OR isRising[row + at] OR isFalling[row + Size - 1 - at]) THEN
      isColumn[at] := TRUE;
      isRising[row + at] := TRUE;
      isFalling[row + Size - 1 - at] := TRUE;
      column[row] := at;
      Place(row + 1);
      isColumn[at] := FALSE;
      isRising[row + at] := FALSE;
      isFalling[row + Size - 1 - at] := FALSE
    END
  END
END Place;

BEGIN
  Clear;
  Place(0);
  WriteCard(boards, 0);
  WriteString(" boards");
  WriteLn
END Queens.
