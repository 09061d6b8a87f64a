MODULE NumbersTest;
(* Tries the library module Numbers: numbers to texts and back, at the limits of the types, and texts that are no numbers. *)

FROM InOut IMPORT Write, WriteCard, WriteInt, WriteLn, WriteString;
FROM Numbers IMPORT CardToStr, HexToStr, IntToStr, OctToStr, StrToCard, StrToHex, StrToInt,
  StrToOct;

TYPE
  Conversion = PROCEDURE (CARDINAL, CARDINAL, VAR ARRAY OF CHAR);
  Reading = PROCEDURE (ARRAY OF CHAR, VAR CARDINAL, VAR BOOLEAN);

VAR
  text: ARRAY [0 .. 15] OF CHAR;
  short: ARRAY [0 .. 3] OF CHAR;

PROCEDURE Show(text: ARRAY OF CHAR);
(* prints a text in quotes, and a space before *)
BEGIN
  WriteString(' "');
  WriteString(text);
  Write('"')
END Show;

PROCEDURE ShowTexts(name: ARRAY OF CHAR; toText: Conversion);
(* prints the texts of some numbers *)
BEGIN
  WriteString(name);
  toText(0, 0, text);
  Show(text);
  toText(7, 3, text);
  Show(text);
  toText(8, 3, text);
  Show(text);
  toText(1000, 6, text);
  Show(text);
  toText(48879, 2, text);
  Show(text);
  toText(MAX(CARDINAL), 12, text);
  Show(text);
  WriteLn
END ShowTexts;

PROCEDURE ShowInteger(number: INTEGER; width: CARDINAL);
BEGIN
  IntToStr(number, width, text);
  Show(text)
END ShowInteger;

PROCEDURE TryTexts;
BEGIN
  ShowTexts("CardToStr", CardToStr);
  ShowTexts("OctToStr", OctToStr);
  ShowTexts("HexToStr", HexToStr);
  WriteString("IntToStr");
  ShowInteger(0, 0);
  ShowInteger(7, 3);
  ShowInteger(-7, 3);
  ShowInteger(-1000, 4);
  ShowInteger(MAX(INTEGER), 12);
  ShowInteger(MIN(INTEGER), 12);
  WriteLn
END TryTexts;

PROCEDURE TryShort;
(* texts in an array of four characters *)
BEGIN
  WriteString("short");
  CardToStr(123, 0, short);
  Show(short);
  CardToStr(1234, 0, short);
  Show(short);
  CardToStr(12345, 0, short);
  Show(short);
  CardToStr(12, 1000, short);
  Show(short);
  IntToStr(-1234, 4, short);
  Show(short);
  WriteLn
END TryShort;

PROCEDURE ShowNumber(name, text: ARRAY OF CHAR; toNumber: Reading);
(* prints the number that a text is, or that it is none *)
VAR
  number: CARDINAL;
  done: BOOLEAN;
BEGIN
  WriteString(name);
  Show(text);
  toNumber(text, number, done);
  IF done THEN
    WriteString(" is ")
  ELSE
    WriteString(" is no number: ")
  END;
  WriteCard(number, 0);
  WriteLn
END ShowNumber;

PROCEDURE ShowInt(text: ARRAY OF CHAR);
(* the same for an INTEGER *)
VAR
  number: INTEGER;
  done: BOOLEAN;
BEGIN
  WriteString("StrToInt");
  Show(text);
  StrToInt(text, number, done);
  IF done THEN
    WriteString(" is ")
  ELSE
    WriteString(" is no number: ")
  END;
  WriteInt(number, 0);
  WriteLn
END ShowInt;

PROCEDURE TryCardinals;
BEGIN
  ShowNumber("StrToCard", "0", StrToCard);
  ShowNumber("StrToCard", "007", StrToCard);
  ShowNumber("StrToCard", "  42 ", StrToCard);
  ShowNumber("StrToCard", "4294967295", StrToCard);
  ShowNumber("StrToCard", "4294967296", StrToCard);
  ShowNumber("StrToCard", "99999999999999999999", StrToCard);
  ShowNumber("StrToCard", "", StrToCard);
  ShowNumber("StrToCard", "   ", StrToCard);
  ShowNumber("StrToCard", "4 2", StrToCard);
  ShowNumber("StrToCard", "12A", StrToCard);
  ShowNumber("StrToCard", "+1", StrToCard)
END TryCardinals;

PROCEDURE TryIntegers;
BEGIN
  ShowInt("0");
  ShowInt("-0");
  ShowInt("+12");
  ShowInt("  -34  ");
  ShowInt("2147483647");
  ShowInt("2147483648");
  ShowInt("-2147483648");
  ShowInt("-2147483649");
  ShowInt("-");
  ShowInt("- 1");
  ShowInt("--1");
  ShowInt("1-")
END TryIntegers;

PROCEDURE TryOtherBases;
BEGIN
  ShowNumber("StrToOct", "777", StrToOct);
  ShowNumber("StrToOct", "37777777777", StrToOct);
  ShowNumber("StrToOct", "40000000000", StrToOct);
  ShowNumber("StrToOct", "8", StrToOct);
  ShowNumber("StrToOct", "17B", StrToOct);
  ShowNumber("StrToHex", "BEEF", StrToHex);
  ShowNumber("StrToHex", "dead", StrToHex);
  ShowNumber("StrToHex", "FFFFFFFF", StrToHex);
  ShowNumber("StrToHex", "100000000", StrToHex);
  ShowNumber("StrToHex", "0G", StrToHex);
  ShowNumber("StrToHex", "10H", StrToHex)
END TryOtherBases;

BEGIN
  TryTexts;
  TryShort;
  TryCardinals;
  TryIntegers;
  TryOtherBases
END NumbersTest.
