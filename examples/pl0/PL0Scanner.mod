IMPLEMENTATION MODULE PL0Scanner;

FROM PL0Source IMPORT EndOfLine, EndOfText, GetPlace, Read, Restart;
FROM Strings IMPORT Compare;

CONST
  Greatest = 2147483647;

VAR
  character: CHAR;    (* the first that belongs to no symbol yet *)
  isStopped: BOOLEAN;
  words: ARRAY [beginWord .. whileWord] OF Name;

PROCEDURE Start;
BEGIN
  isStopped := FALSE;
  Restart;
  Read(character);
  GetSymbol
END Start;

PROCEDURE Stop;
BEGIN
  isStopped := TRUE;
  symbol := endOfText
END Stop;

PROCEDURE IsLetter(character: CHAR): BOOLEAN;
BEGIN
  RETURN (CAP(character) >= "A") AND (CAP(character) <= "Z")
END IsLetter;

PROCEDURE IsDigit(character: CHAR): BOOLEAN;
BEGIN
  RETURN (character >= "0") AND (character <= "9")
END IsDigit;

PROCEDURE FindWord;
(* The symbol of the current name: a word of the language, or else a name. *)
VAR word: Symbol;
BEGIN
  symbol := aName;
  FOR word := beginWord TO whileWord DO
    IF Compare(name, words[word]) = 0 THEN symbol := word END
  END
END FindWord;

PROCEDURE GetName;
(* Reads letters and digits. *)
VAR length: CARDINAL;
BEGIN
  length := 0;
  WHILE IsLetter(character) OR IsDigit(character) DO
    IF length < NameLength THEN
      name[length] := character;
      INC(length)
    END;
    Read(character)
  END;
  IF length < NameLength THEN name[length] := 0C END;
  FindWord
END GetName;

PROCEDURE GetNumber;
(* Reads digits. *)
VAR digit: INTEGER;
BEGIN
  symbol := aNumber;
  number := 0;
  WHILE IsDigit(character) DO
    digit := ORD(character) - ORD("0");
    IF number <= (Greatest - digit) DIV 10 THEN
      number := number * 10 + digit
    ELSE
      symbol := unknown
    END;
    Read(character)
  END
END GetNumber;

PROCEDURE GetSingle(single: Symbol);
(* Reads the one character of a symbol. *)
BEGIN
  symbol := single;
  Read(character)
END GetSingle;

PROCEDURE GetPair(without, with: Symbol);
(* Reads a character, and "=" if that follows: the symbol is then `with`, else `without`. *)
BEGIN
  GetSingle(without);
  IF character = "=" THEN GetSingle(with) END
END GetPair;

PROCEDURE GetSpecial;
(* Reads a symbol that is neither a word nor a number. *)
BEGIN
  CASE character OF
    "+": GetSingle(plus)
  | "-": GetSingle(minus)
  | "*": GetSingle(times)
  | "/": GetSingle(slash)
  | "=": GetSingle(equal)
  | "#": GetSingle(unequal)
  | "<": GetPair(less, lessOrEqual)
  | ">": GetPair(greater, greaterOrEqual)
  | "(": GetSingle(leftBracket)
  | ")": GetSingle(rightBracket)
  | ",": GetSingle(comma)
  | ";": GetSingle(semicolon)
  | ".": GetSingle(period)
  | ":": GetPair(unknown, becomes)
  | "!": GetSingle(exclamation)
  | EndOfText: symbol := endOfText
  ELSE
    GetSingle(unknown)
  END
END GetSpecial;

PROCEDURE GetSymbol;
BEGIN
  IF isStopped THEN RETURN END;
  WHILE (character = " ") OR (character = EndOfLine) DO Read(character) END;
  GetPlace(line, column);
  IF IsLetter(character) THEN
    GetName
  ELSIF IsDigit(character) THEN
    GetNumber
  ELSE
    GetSpecial
  END
END GetSymbol;

PROCEDURE EnterWords;
BEGIN
  words[beginWord] := "begin";
  words[callWord] := "call";
  words[constWord] := "const";
  words[doWord] := "do";
  words[endWord] := "end";
  words[ifWord] := "if";
  words[oddWord] := "odd";
  words[procedureWord] := "procedure";
  words[thenWord] := "then";
  words[varWord] := "var";
  words[whileWord] := "while"
END EnterWords;

BEGIN
  EnterWords
END PL0Scanner.
