IMPLEMENTATION MODULE Lines;

FROM InOut IMPORT Write, WriteLn, WriteString;
FROM Strings IMPORT Assign, Length;

CONST
  MostWords = MostWidth DIV 2 + 1;    (* a word has one character or more, and a space before the next *)

TYPE
  Word = ARRAY [0 .. WordLength - 1] OF CHAR;

VAR
  currentManner: Manner;
  lineWidth, lineIndent: CARDINAL;
  words: ARRAY [1 .. MostWords] OF Word;    (* those of the current line *)
  count: CARDINAL;                          (* of them *)
  letters: CARDINAL;                        (* of all of them *)
  isFromLeft: BOOLEAN;                      (* at which end of the next line spaces are made wider first *)

PROCEDURE Room(): CARDINAL;
(* The columns of a line that words may take. *)
BEGIN
  RETURN lineWidth - lineIndent
END Room;

PROCEDURE Free(): CARDINAL;
(* The columns that stay free if the words of the current line stand one space apart. *)
BEGIN
  IF count = 0 THEN RETURN Room() END;
  IF letters + count - 1 >= Room() THEN RETURN 0 END;
  RETURN Room() - (letters + count - 1)
END Free;

PROCEDURE WriteSpaces(spaces: CARDINAL);
BEGIN
  WHILE spaces > 0 DO
    Write(" ");
    DEC(spaces)
  END
END WriteSpaces;

PROCEDURE GapBehind(word, spare: CARDINAL): CARDINAL;
(* The spaces behind a word, if `spare` further ones are dealt to the gaps of the line. Those that cannot be dealt evenly
   make the first gaps wider by one or, on each second line, the last gaps, so the text has no white stripes. *)
VAR
  gaps, wide: CARDINAL;
  isWide: BOOLEAN;
BEGIN
  gaps := count - 1;
  wide := spare MOD gaps;
  IF isFromLeft THEN
    isWide := word <= wide
  ELSE
    isWide := word > gaps - wide
  END;
  IF isWide THEN RETURN 2 + spare DIV gaps END;
  RETURN 1 + spare DIV gaps
END GapBehind;

PROCEDURE PrintWords(spare: CARDINAL);
(* Prints the current line with `spare` further spaces between its words, and forgets it. *)
VAR
  word: CARDINAL;
BEGIN
  WriteSpaces(lineIndent);
  FOR word := 1 TO count DO
    WriteString(words[word]);
    IF word < count THEN WriteSpaces(GapBehind(word, spare)) END
  END;
  WriteLn;
  count := 0;
  letters := 0
END PrintWords;

PROCEDURE PrintFull;
(* Prints a line on which no further word fits. *)
BEGIN
  IF (currentManner = justified) AND (count > 1) THEN
    PrintWords(Free());
    isFromLeft := NOT isFromLeft
  ELSE
    Break
  END
END PrintFull;

PROCEDURE Break;
BEGIN
  IF count > 0 THEN
    IF currentManner = centred THEN WriteSpaces(Free() DIV 2) END;
    PrintWords(0)
  END
END Break;

PROCEDURE Skip;
BEGIN
  Break;
  WriteLn
END Skip;

PROCEDURE AddWord(word: ARRAY OF CHAR);
BEGIN
  IF Length(word) = 0 THEN RETURN END;
  IF (count > 0) AND (Length(word) + 1 > Free()) THEN PrintFull END;
  INC(count);
  Assign(words[count], word);
  letters := letters + Length(words[count])
END AddWord;

PROCEDURE SetManner(manner: Manner);
BEGIN
  Break;
  currentManner := manner
END SetManner;

PROCEDURE SetWidth(width: CARDINAL);
BEGIN
  Break;
  lineWidth := width;
  IF width = 0 THEN lineWidth := 1 END;
  IF width > MostWidth THEN lineWidth := MostWidth END;
  SetIndent(lineIndent)
END SetWidth;

PROCEDURE SetIndent(indent: CARDINAL);
BEGIN
  Break;
  lineIndent := indent;
  IF indent >= lineWidth THEN lineIndent := lineWidth - 1 END
END SetIndent;

BEGIN
  count := 0;
  letters := 0;
  isFromLeft := TRUE;
  currentManner := ragged;
  lineWidth := 60;
  lineIndent := 0
END Lines.
