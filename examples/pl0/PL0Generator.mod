IMPLEMENTATION MODULE PL0Generator;

FROM InOut IMPORT Write, WriteCard, WriteInt, WriteLn, WriteString;
FROM Strings IMPORT Length;

CONST
  WordLength = 14;

TYPE
  Word = ARRAY [0 .. WordLength - 1] OF CHAR;

VAR
  code: ARRAY [0 .. MostInstructions - 1] OF Instruction;
  count: CARDINAL;    (* of instructions *)
  words: ARRAY Operation OF Word;

PROCEDURE Clear;
BEGIN
  count := 0
END Clear;

PROCEDURE IsFull(): BOOLEAN;
BEGIN
  RETURN count = MostInstructions
END IsFull;

PROCEDURE Emit(operation: Operation; level: CARDINAL; argument: INTEGER);
BEGIN
  IF NOT IsFull() THEN
    code[count].operation := operation;
    code[count].level := level;
    code[count].argument := argument;
    INC(count)
  END
END Emit;

PROCEDURE Here(): CARDINAL;
BEGIN
  RETURN count
END Here;

PROCEDURE FixJump(address: CARDINAL);
BEGIN
  IF address < count THEN code[address].argument := count END
END FixJump;

PROCEDURE Get(address: CARDINAL; VAR instruction: Instruction);
BEGIN
  instruction := code[address]
END Get;

PROCEDURE FillUp(word: Word);
(* Prints the spaces that stand behind a word in a column. *)
VAR length: CARDINAL;
BEGIN
  FOR length := Length(word) TO WordLength - 1 DO Write(" ") END
END FillUp;

PROCEDURE ShowInstruction(instruction: Instruction);
BEGIN
  WITH instruction DO
    WriteString(words[operation]);
    CASE operation OF
      load, store, call:
        FillUp(words[operation]);
        WriteCard(level, 2);
        WriteInt(argument, 5)
    | literal, reserve, jump, jumpIfFalse:
        FillUp(words[operation]);
        WriteInt(argument, 7)
    ELSE    (* the other operations have no argument *)
    END
  END
END ShowInstruction;

PROCEDURE Show;
VAR address: CARDINAL;
BEGIN
  address := 0;
  WHILE address < count DO
    WriteCard(address, 4);
    Write(" ");
    ShowInstruction(code[address]);
    WriteLn;
    INC(address)
  END
END Show;

PROCEDURE EnterWords;
BEGIN
  words[literal] := "literal";
  words[load] := "load";
  words[store] := "store";
  words[call] := "call";
  words[reserve] := "reserve";
  words[jump] := "jump";
  words[jumpIfFalse] := "jump if false";
  words[return] := "return";
  words[negate] := "negate";
  words[isOdd] := "is odd";
  words[write] := "write";
  words[add] := "add";
  words[subtract] := "subtract";
  words[multiply] := "multiply";
  words[divide] := "divide";
  words[isEqual] := "=";
  words[isUnequal] := "#";
  words[isLess] := "<";
  words[isLessOrEqual] := "<=";
  words[isGreater] := ">";
  words[isGreaterOrEqual] := ">="
END EnterWords;

BEGIN
  Clear;
  EnterWords
END PL0Generator.
