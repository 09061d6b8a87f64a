IMPLEMENTATION MODULE PL0Source;

FROM InOut IMPORT Write, WriteCard, WriteLn;

CONST
  Room = 2000;

VAR
  text: ARRAY [0 .. Room - 1] OF CHAR;
  length: CARDINAL;                       (* of the text *)
  next: CARDINAL;                         (* the position of the character that is read next *)
  currentLine, currentColumn: CARDINAL;   (* of the character that was read last *)
  isLineRead: BOOLEAN;                    (* whether that character was the end of its line *)

PROCEDURE Clear;
BEGIN
  length := 0;
  Restart
END Clear;

PROCEDURE Append(character: CHAR);
BEGIN
  text[length] := character;
  INC(length)
END Append;

PROCEDURE Add(line: ARRAY OF CHAR);
VAR i: CARDINAL;
BEGIN
  i := 0;
  WHILE (i <= HIGH(line)) AND (line[i] # 0C) DO
    Append(line[i]);
    INC(i)
  END;
  Append(EndOfLine)
END Add;

PROCEDURE Restart;
BEGIN
  next := 0;
  currentLine := 1;
  currentColumn := 0;
  isLineRead := FALSE
END Restart;

PROCEDURE Advance;
(* goes on to the place of the next character *)
BEGIN
  IF isLineRead THEN
    INC(currentLine);
    currentColumn := 1
  ELSE
    INC(currentColumn)
  END
END Advance;

PROCEDURE Read(VAR character: CHAR);
BEGIN
  IF next < length THEN
    Advance;
    character := text[next];
    isLineRead := character = EndOfLine;
    INC(next)
  ELSE
    character := EndOfText
  END
END Read;

PROCEDURE GetPlace(VAR line, column: CARDINAL);
BEGIN
  line := currentLine;
  column := currentColumn
END GetPlace;

PROCEDURE Show;
VAR i, line: CARDINAL;
BEGIN
  i := 0;
  line := 0;
  WHILE i < length DO
    INC(line);
    WriteCard(line, 3);
    Write(" ");
    WHILE text[i] # EndOfLine DO
      Write(text[i]);
      INC(i)
    END;
    WriteLn;
    INC(i)
  END
END Show;

BEGIN
  Clear
END PL0Source.
