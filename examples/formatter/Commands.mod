IMPLEMENTATION MODULE Commands;

FROM InOut IMPORT WriteLn, WriteString;
FROM Lines IMPORT AddWord, Break, Manner, SetIndent, SetManner, SetWidth, Skip, WordLength;
FROM Numbers IMPORT StrToCard;
FROM Strings IMPORT Compare, Copy, Length;

TYPE
  Word = ARRAY [0 .. WordLength - 1] OF CHAR;

PROCEDURE GetWord(line: ARRAY OF CHAR; VAR at: CARDINAL; VAR word: Word);
(* The word that is the first in the line from the position `at` on, or the empty text if there is none. `at` becomes the
   position behind it. *)
VAR
  length, begin: CARDINAL;
BEGIN
  length := Length(line);
  WHILE (at < length) AND (line[at] = " ") DO INC(at) END;
  begin := at;
  WHILE (at < length) AND (line[at] # " ") DO INC(at) END;
  Copy(line, begin, at - begin, word)
END GetWord;

PROCEDURE AddWords(line: ARRAY OF CHAR);
VAR
  at: CARDINAL;
  word: Word;
BEGIN
  at := 0;
  GetWord(line, at, word);
  IF Length(word) = 0 THEN Skip END;
  WHILE Length(word) > 0 DO
    AddWord(word);
    GetWord(line, at, word)
  END
END AddWords;

PROCEDURE Refuse(line: ARRAY OF CHAR);
BEGIN
  Break;
  WriteString("?? ");
  WriteString(line);
  WriteLn
END Refuse;

PROCEDURE Obey(command, argument, line: ARRAY OF CHAR);
(* Does what a command says, given its words and the whole line. *)
VAR
  number: CARDINAL;
  isNumber: BOOLEAN;
BEGIN
  StrToCard(argument, number, isNumber);
  IF (Compare(command, ".width") = 0) AND isNumber THEN
    SetWidth(number)
  ELSIF (Compare(command, ".indent") = 0) AND isNumber THEN
    SetIndent(number)
  ELSIF Length(argument) > 0 THEN
    Refuse(line)
  ELSIF Compare(command, ".ragged") = 0 THEN
    SetManner(ragged)
  ELSIF Compare(command, ".justified") = 0 THEN
    SetManner(justified)
  ELSIF Compare(command, ".centred") = 0 THEN
    SetManner(centred)
  ELSIF Compare(command, ".break") = 0 THEN
    Break
  ELSE
    Refuse(line)
  END
END Obey;

PROCEDURE Process(line: ARRAY OF CHAR);
VAR
  at: CARDINAL;
  command, argument: Word;
BEGIN
  IF line[0] = "." THEN
    at := 0;
    GetWord(line, at, command);
    GetWord(line, at, argument);
    Obey(command, argument, line)
  ELSE
    AddWords(line)
  END
END Process;

END Commands.
