IMPLEMENTATION MODULE Board;

FROM InOut IMPORT Write, WriteLn;

CONST
  Alive = "*";
  Dead = ".";

PROCEDURE Clear(VAR cells: Cells);
VAR
  row: Row;
  column: Column;
BEGIN
  FOR row := 0 TO Rows - 1 DO
    FOR column := 0 TO Columns - 1 DO cells[row, column] := FALSE END
  END
END Clear;

PROCEDURE Draw(VAR cells: Cells; row: Row; column: Column; picture: ARRAY OF CHAR);
VAR
  i: CARDINAL;
BEGIN
  i := 0;
  WHILE (i <= HIGH(picture)) AND (picture[i] # 0C) DO
    cells[row, (column + i) MOD Columns] := picture[i] = Alive;
    INC(i)
  END
END Draw;

PROCEDURE Advance(VAR cells: Cells);
VAR
  old: Cells;
  row: Row;
  column: Column;

  PROCEDURE LivingNeighbours(row: Row; column: Column): CARDINAL;
  (* One row up is Rows - 1 rows down, since the rows are a ring; and likewise for columns. *)
  VAR
    count, down, right: CARDINAL;
  BEGIN
    count := 0;
    FOR down := Rows - 1 TO Rows + 1 DO
      FOR right := Columns - 1 TO Columns + 1 DO
        IF old[(row + down) MOD Rows, (column + right) MOD Columns] THEN INC(count) END
      END
    END;
    IF old[row, column] THEN DEC(count) END;    (* no cell is a neighbour of itself *)
    RETURN count
  END LivingNeighbours;

BEGIN
  old := cells;
  FOR row := 0 TO Rows - 1 DO
    FOR column := 0 TO Columns - 1 DO
      CASE LivingNeighbours(row, column) OF
        2:    (* the cell stays as it is *)
      | 3: cells[row, column] := TRUE
      ELSE
        cells[row, column] := FALSE
      END
    END
  END
END Advance;

PROCEDURE Population(cells: Cells): CARDINAL;
VAR
  count: CARDINAL;
  row: Row;
  column: Column;
BEGIN
  count := 0;
  FOR row := 0 TO Rows - 1 DO
    FOR column := 0 TO Columns - 1 DO
      IF cells[row, column] THEN INC(count) END
    END
  END;
  RETURN count
END Population;

PROCEDURE IsEqual(left, right: Cells): BOOLEAN;
VAR
  row: Row;
  column: Column;
BEGIN
  FOR row := 0 TO Rows - 1 DO
    FOR column := 0 TO Columns - 1 DO
      IF left[row, column] # right[row, column] THEN RETURN FALSE END
    END
  END;
  RETURN TRUE
END IsEqual;

PROCEDURE Show(cells: Cells);
VAR
  row: Row;
  column: Column;
BEGIN
  FOR row := 0 TO Rows - 1 DO
    FOR column := 0 TO Columns - 1 DO
      IF cells[row, column] THEN Write(Alive) ELSE Write(Dead) END
    END;
    WriteLn
  END
END Show;

END Board.
