IMPLEMENTATION MODULE Terminal;

FROM Console IMPORT Put;

CONST
  LineFeed = 12C;

PROCEDURE Write(character: CHAR);
BEGIN
  Put(character)
END Write;

PROCEDURE WriteString(text: ARRAY OF CHAR);
VAR i: CARDINAL;
BEGIN
  i := 0;
  WHILE (i <= HIGH(text)) AND (text[i] # 0C) DO
    Put(text[i]);
    INC(i)
  END
END WriteString;

PROCEDURE WriteLn;
BEGIN
  Put(LineFeed)
END WriteLn;

END Terminal.
