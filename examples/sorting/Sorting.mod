MODULE Sorting;
(* The same numbers sorted by two procedures, which stand in one table. *)

FROM InOut IMPORT WriteInt, WriteLn, WriteString;

CONST
  Count = 12;

TYPE
  Numbers = ARRAY [0 .. Count - 1] OF INTEGER;
  Sort = PROCEDURE (VAR ARRAY OF INTEGER);
  Row = RECORD
    name: ARRAY [0 .. 15] OF CHAR;
    sort: Sort
  END;

VAR
  rows: ARRAY [1 .. 2] OF Row;
  numbers: Numbers;
  i, at: CARDINAL;

PROCEDURE Insertion(VAR a: ARRAY OF INTEGER);
VAR
  i, at: CARDINAL;
  moved: INTEGER;
BEGIN
  FOR i := 1 TO HIGH(a) DO
    moved := a[i];
    at := i;
    WHILE (at > 0) AND (a[at - 1] > moved) DO
      a[at] := a[at - 1];
      DEC(at)
    END;
    a[at] := moved
  END
END Insertion;

PROCEDURE Quick(VAR a: ARRAY OF INTEGER);

  PROCEDURE Part(low, high: INTEGER);
  VAR
    i, j, middle, kept: INTEGER;
  BEGIN
    i := low;
    j := high;
    middle := a[(low + high) DIV 2];
    REPEAT
      WHILE a[i] < middle DO INC(i) END;
      WHILE a[j] > middle DO DEC(j) END;
      IF i <= j THEN
        kept := a[i];
        a[i] := a[j];
        a[j] := kept;
        INC(i);
        DEC(j)
      END
    UNTIL i > j;
    IF low < j THEN Part(low, j) END;
    IF i < high THEN Part(i, high) END
  END Part;

BEGIN
  Part(0, HIGH(a))
END Quick;

PROCEDURE Fill(VAR a: Numbers);
VAR
  i, at: CARDINAL;
  next: INTEGER;
BEGIN
  next := 7;
  FOR i := 0 TO Count - 1 DO
    a[i] := next - 50;
    next := (next * 37 + 11) MOD 101
  END
END Fill;

BEGIN
  rows[1].name := "insertion";
  rows[1].sort := Insertion;
  rows[2].name := "quick";
  rows[2].sort := Quick;
  FOR i := 1 TO 2 DO
    Fill(numbers);
    rows[i].sort(numbers);
    WriteString(rows[i].name);
    WriteString(":");
    FOR at := 0 TO Count - 1 DO WriteInt(numbers[at], 4) END;
    WriteLn
  END
END Sorting.
