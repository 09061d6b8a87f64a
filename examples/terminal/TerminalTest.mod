MODULE TerminalTest;
(* Tries the library module Terminal: single characters, and texts that end with their array, with a 0C, or at once. *)

FROM Terminal IMPORT Write, WriteLn, WriteString;

CONST
  FirstPrinted = 40C;    (* the space *)
  LastPrinted = 176C;    (* "~" *)
  InLine = 32;

VAR
  full: ARRAY [0 .. 3] OF CHAR;
  part: ARRAY [0 .. 9] OF CHAR;

PROCEDURE WriteInBrackets(text: ARRAY OF CHAR);
BEGIN
  Write("[");
  WriteString(text);
  Write("]");
  WriteLn
END WriteInBrackets;

PROCEDURE WritePrinted;
(* prints the characters that have a picture, 32 in a line *)
VAR
  character: CHAR;
BEGIN
  FOR character := FirstPrinted TO LastPrinted DO
    Write(character);
    IF ORD(character) MOD InLine = InLine - 1 THEN WriteLn END
  END;
  WriteLn
END WritePrinted;

BEGIN
  WriteInBrackets("a constant");
  WriteInBrackets("");
  full := "full";
  WriteInBrackets(full);
  part := "part";
  WriteInBrackets(part);
  part[2] := 0C;
  WriteInBrackets(part);
  part[0] := 0C;
  WriteInBrackets(part);
  WriteLn;
  WritePrinted
END TerminalTest.
