IMPLEMENTATION MODULE Numbers;

FROM Strings IMPORT Length;

CONST
  Octal = 8;
  Decimal = 10;
  Hexadecimal = 16;
  NoDigit = 16;        (* the value of a character that is no digit in any base *)
  MostDigits = 11;     (* of the greatest CARDINAL in octal digits *)

TYPE
  Base = [Octal .. Hexadecimal];

PROCEDURE Digit(value: CARDINAL): CHAR;
(* The digit of a value from 0 to 15. *)
BEGIN
  IF value < Decimal THEN RETURN CHR(ORD("0") + value) END;
  RETURN CHR(ORD("A") + value - Decimal)
END Digit;

PROCEDURE Value(character: CHAR): CARDINAL;
(* The value of a digit, or NoDigit. *)
BEGIN
  CASE CAP(character) OF
    "0" .. "9": RETURN ORD(character) - ORD("0")
  | "A" .. "F": RETURN ORD(CAP(character)) - ORD("A") + Decimal
  ELSE
    RETURN NoDigit
  END
END Value;

PROCEDURE Append(character: CHAR; VAR text: ARRAY OF CHAR; VAR length: CARDINAL);
(* Writes a character behind the first `length` of `text`, if there is room. *)
BEGIN
  IF length <= HIGH(text) THEN
    text[length] := character;
    INC(length)
  END
END Append;

PROCEDURE Write(number: CARDINAL; base: Base; isNegative: BOOLEAN; width: CARDINAL;
  VAR text: ARRAY OF CHAR);
(* Makes the text of a number whose digits are those of `number`. *)
VAR
  digits: ARRAY [1 .. MostDigits] OF CHAR;    (* the last digit stands first *)
  count, used, length: CARDINAL;
BEGIN
  count := 0;
  REPEAT
    INC(count);
    digits[count] := Digit(number MOD base);
    number := number DIV base
  UNTIL number = 0;
  used := count;
  IF isNegative THEN INC(used) END;
  IF width > HIGH(text) THEN width := HIGH(text) + 1 END;
  length := 0;
  WHILE length + used < width DO Append(" ", text, length) END;
  IF isNegative THEN Append("-", text, length) END;
  WHILE count > 0 DO
    Append(digits[count], text, length);
    DEC(count)
  END;
  IF length <= HIGH(text) THEN text[length] := 0C END
END Write;

PROCEDURE CardToStr(number, width: CARDINAL; VAR text: ARRAY OF CHAR);
BEGIN
  Write(number, Decimal, FALSE, width, text)
END CardToStr;

PROCEDURE IntToStr(number: INTEGER; width: CARDINAL; VAR text: ARRAY OF CHAR);
(* The digits of the least INTEGER are no INTEGER, so 1 is added before the sign is turned, and again behind. *)
BEGIN
  IF number < 0 THEN
    Write(VAL(CARDINAL, -(number + 1)) + 1, Decimal, TRUE, width, text)
  ELSE
    Write(VAL(CARDINAL, number), Decimal, FALSE, width, text)
  END
END IntToStr;

PROCEDURE OctToStr(number, width: CARDINAL; VAR text: ARRAY OF CHAR);
BEGIN
  Write(number, Octal, FALSE, width, text)
END OctToStr;

PROCEDURE HexToStr(number, width: CARDINAL; VAR text: ARRAY OF CHAR);
BEGIN
  Write(number, Hexadecimal, FALSE, width, text)
END HexToStr;

PROCEDURE FirstOther(text: ARRAY OF CHAR): CARDINAL;
(* The position of the first character that is no space, or the length of the text. *)
VAR at, length: CARDINAL;
BEGIN
  length := Length(text);
  at := 0;
  WHILE (at < length) AND (text[at] = " ") DO INC(at) END;
  RETURN at
END FirstOther;

PROCEDURE LengthWithout(text: ARRAY OF CHAR): CARDINAL;
(* The length of a text without the spaces at its end. *)
VAR length: CARDINAL;
BEGIN
  length := Length(text);
  WHILE (length > 0) AND (text[length - 1] = " ") DO DEC(length) END;
  RETURN length
END LengthWithout;

PROCEDURE Read(text: ARRAY OF CHAR; at: CARDINAL; base: Base; most: CARDINAL; VAR number: CARDINAL;
  VAR done: BOOLEAN);
(* Reads the number of at most `most` whose digits begin at `at` and end where the text does, but for spaces. *)
VAR length, value: CARDINAL;
BEGIN
  length := LengthWithout(text);
  number := 0;
  done := at < length;
  WHILE done AND (at < length) DO
    value := Value(text[at]);
    done := (value < base) AND (number <= (most - value) DIV base);
    IF done THEN number := number * base + value END;
    INC(at)
  END;
  IF NOT done THEN number := 0 END
END Read;

PROCEDURE StrToCard(text: ARRAY OF CHAR; VAR number: CARDINAL; VAR done: BOOLEAN);
BEGIN
  Read(text, FirstOther(text), Decimal, MAX(CARDINAL), number, done)
END StrToCard;

PROCEDURE Negative(amount: CARDINAL): INTEGER;
(* The INTEGER below 0 by `amount`, which may be one more than the greatest INTEGER. *)
BEGIN
  IF amount = 0 THEN RETURN 0 END;
  RETURN -VAL(INTEGER, amount - 1) - 1
END Negative;

PROCEDURE StrToInt(text: ARRAY OF CHAR; VAR number: INTEGER; VAR done: BOOLEAN);
CONST
  Greatest = 2147483647;
VAR
  at, amount: CARDINAL;
  sign: CHAR;
BEGIN
  at := FirstOther(text);
  sign := "+";
  IF (at < Length(text)) AND ((text[at] = "+") OR (text[at] = "-")) THEN
    sign := text[at];
    INC(at)
  END;
  IF sign = "-" THEN
    Read(text, at, Decimal, Greatest + 1, amount, done);
    number := Negative(amount)
  ELSE
    Read(text, at, Decimal, Greatest, amount, done);
    number := amount
  END
END StrToInt;

PROCEDURE StrToOct(text: ARRAY OF CHAR; VAR number: CARDINAL; VAR done: BOOLEAN);
BEGIN
  Read(text, FirstOther(text), Octal, MAX(CARDINAL), number, done)
END StrToOct;

PROCEDURE StrToHex(text: ARRAY OF CHAR; VAR number: CARDINAL; VAR done: BOOLEAN);
BEGIN
  Read(text, FirstOther(text), Hexadecimal, MAX(CARDINAL), number, done)
END StrToHex;

END Numbers.
