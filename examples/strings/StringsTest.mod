MODULE StringsTest;
(* Tries the library module Strings: each procedure in the midst of a text, at its ends, and where there is no room. *)

FROM InOut IMPORT Write, WriteCard, WriteInt, WriteLn, WriteString;
FROM Strings IMPORT Assign, Compare, CompareStr, Concat, ConCat, Copy, Delete, Insert, Length, Pos;

TYPE
  Line = ARRAY [0 .. 19] OF CHAR;
  Word = ARRAY [0 .. 7] OF CHAR;

VAR
  line: Line;
  word: Word;

PROCEDURE Show(text: ARRAY OF CHAR);
(* prints a text in quotes *)
BEGIN
  Write('"');
  WriteString(text);
  Write('"')
END Show;

PROCEDURE ShowResult(name, result: ARRAY OF CHAR);
(* prints what a call made, and how long it is *)
BEGIN
  WriteString(name);
  WriteString(": ");
  Show(result);
  WriteCard(Length(result), 3);
  WriteLn
END ShowResult;

PROCEDURE TryLength;
BEGIN
  word := "";
  ShowResult("Length of nothing", word);
  word := "seven..";
  ShowResult("Length with a 0C behind", word);
  word := "eight...";
  ShowResult("Length of a full array", word);
  word[3] := 0C;
  ShowResult("Length up to the first 0C", word)
END TryLength;

PROCEDURE TryAssign;
BEGIN
  Assign(word, "pear");
  ShowResult("Assign", word);
  Assign(word, "pineapple");
  ShowResult("Assign, no room", word);
  Assign(word, "");
  ShowResult("Assign, nothing", word);
  Assign(word, "plum");
  Assign(line, word);
  ShowResult("Assign, to a longer array", line)
END TryAssign;

PROCEDURE TryConcat;
BEGIN
  Concat("Modula", "-2", word);
  ShowResult("Concat", word);
  Concat(word, " is small", line);
  ShowResult("Concat", line);
  Concat(word, " is small", word);
  ShowResult("Concat, no room", word);
  Concat("", "", word);
  ShowResult("Concat, nothing", word);
  word := "ab";
  Concat(word, word, word);
  ShowResult("Concat, all the same", word);
  ConCat(word, "c", word);
  ShowResult("ConCat", word)
END TryConcat;

PROCEDURE TryCopy;
BEGIN
  line := "a collection";
  Copy(line, 2, 7, word);
  ShowResult("Copy 2, 7", word);
  Copy(line, 0, 1, word);
  ShowResult("Copy 0, 1", word);
  Copy(line, 7, MAX(CARDINAL), word);
  ShowResult("Copy 7, MAX", word);
  Copy(line, 12, 1, word);
  ShowResult("Copy 12, 1", word);
  Copy(line, MAX(CARDINAL), MAX(CARDINAL), word);
  ShowResult("Copy MAX, MAX", word);
  Copy(line, 2, 10, word);
  ShowResult("Copy 2, 10, no room", word);
  Copy(line, 2, 4, line);
  ShowResult("Copy 2, 4, to itself", line)
END TryCopy;

PROCEDURE TryInsert;
BEGIN
  word := "ace";
  Insert("b", word, 1);
  ShowResult("Insert 1", word);
  Insert("d", word, 3);
  ShowResult("Insert 3", word);
  Insert("_", word, 0);
  ShowResult("Insert 0", word);
  Insert("f", word, 6);
  ShowResult("Insert at the end", word);
  Insert("g", word, 1000);
  ShowResult("Insert 1000", word);
  Insert("xyz", word, 4);
  ShowResult("Insert 4, no room", word);
  word := "ab";
  Insert(word, word, 1);
  ShowResult("Insert, into itself", word)
END TryInsert;

PROCEDURE TryDelete;
BEGIN
  word := "abcdefgh";
  Delete(word, 2, 3);
  ShowResult("Delete 2, 3", word);
  Delete(word, 0, 1);
  ShowResult("Delete 0, 1", word);
  Delete(word, 1, 0);
  ShowResult("Delete 1, 0", word);
  Delete(word, 4, 5);
  ShowResult("Delete 4, 5", word);
  Delete(word, 2, MAX(CARDINAL));
  ShowResult("Delete 2, MAX", word);
  Delete(word, 0, 2);
  ShowResult("Delete 0, 2", word);
  Delete(word, 0, 2);
  ShowResult("Delete 0, 2", word)
END TryDelete;

PROCEDURE ShowPos(part, text: ARRAY OF CHAR);
(* prints where a part stands *)
BEGIN
  WriteString("Pos of ");
  Show(part);
  WriteString(" in ");
  Show(text);
  WriteString(":");
  IF Pos(part, text) > HIGH(text) THEN
    WriteString(" nowhere")
  ELSE
    WriteCard(Pos(part, text), 2)
  END;
  WriteLn
END ShowPos;

PROCEDURE TryPos;
BEGIN
  word := "banana";
  ShowPos("b", word);
  ShowPos("ana", word);
  ShowPos("nana", word);
  ShowPos("nanas", word);
  ShowPos("banana", word);
  ShowPos("bananas", word);
  ShowPos("B", word);
  ShowPos("", word);
  word := "";
  ShowPos("b", word);
  ShowPos("", word);
  word := "abcabcab";
  ShowPos("cab", word);
  WriteString("Pos of what is not there:");
  WriteCard(Pos("x", word), 2);
  WriteLn
END TryPos;

PROCEDURE ShowCompare(left, right: ARRAY OF CHAR);
(* prints how two texts compare, both ways *)
BEGIN
  WriteString("Compare ");
  Show(left);
  WriteString(" and ");
  Show(right);
  WriteString(":");
  WriteInt(Compare(left, right), 3);
  WriteInt(CompareStr(right, left), 3);
  WriteLn
END ShowCompare;

PROCEDURE TryCompare;
BEGIN
  ShowCompare("apple", "pear");
  ShowCompare("pear", "peach");
  ShowCompare("pea", "pear");
  ShowCompare("Pear", "pear");
  ShowCompare("", "a");
  ShowCompare("", "");
  line := "pear";
  word := "pear";
  ShowCompare(line, word);
  word[0] := 377C;
  word[1] := 0C;
  WriteString("Compare with the character 377C:");
  WriteInt(Compare(line, word), 3);
  WriteLn
END TryCompare;

BEGIN
  TryLength;
  TryAssign;
  TryConcat;
  TryCopy;
  TryInsert;
  TryDelete;
  TryPos;
  TryCompare
END StringsTest.
