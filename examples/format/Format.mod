MODULE Format;
(* Fills lines with the words of a text, and sets them flush. *)

FROM InOut IMPORT Write, WriteLn;

CONST
  Width = 24;

VAR
  line: ARRAY [0 .. Width - 1] OF CHAR;
  used, gaps: CARDINAL;

PROCEDURE Length(s: ARRAY OF CHAR): CARDINAL;
VAR i: CARDINAL;
BEGIN
  i := 0;
  WHILE (i <= HIGH(s)) AND (s[i] # 0C) DO INC(i) END;
  RETURN i
END Length;

PROCEDURE Flush(isLast: BOOLEAN);
(* prints the line, with its spaces made wider up to the width, but for the last line *)
VAR
  i, extra, left, space: CARDINAL;
BEGIN
  extra := 0;
  IF NOT isLast THEN extra := Width - used END;
  left := gaps;
  i := 0;
  WHILE i < used DO
    Write(line[i]);
    IF line[i] = " " THEN
      space := (extra + left - 1) DIV left;
      extra := extra - space;
      DEC(left);
      WHILE space > 0 DO
        Write(" ");
        DEC(space)
      END
    END;
    INC(i)
  END;
  IF used > 0 THEN WriteLn END;
  used := 0;
  gaps := 0
END Flush;

PROCEDURE Add(text: ARRAY OF CHAR; from, to: CARDINAL);
(* adds the word that stands from `from` to before `to` *)
VAR i: CARDINAL;
BEGIN
  IF (used > 0) AND (used + 1 + to - from > Width) THEN Flush(FALSE) END;
  IF used > 0 THEN
    line[used] := " ";
    INC(used);
    INC(gaps)
  END;
  FOR i := from TO to - 1 DO
    line[used] := text[i];
    INC(used)
  END
END Add;

PROCEDURE Words(text: ARRAY OF CHAR);
VAR
  i, from, length: CARDINAL;
BEGIN
  length := Length(text);
  i := 0;
  WHILE i < length DO
    WHILE (i < length) AND (text[i] = " ") DO INC(i) END;
    from := i;
    WHILE (i < length) AND (text[i] # " ") DO INC(i) END;
    IF from < i THEN Add(text, from, i) END
  END
END Words;

BEGIN
  used := 0;
  gaps := 0;
  Words("A module is a collection of declarations.");
  Words("  Its definition says which of them others may name;");
  Words("its implementation says what they do.");
  Flush(TRUE)
END Format.
