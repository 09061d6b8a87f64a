IMPLEMENTATION MODULE Machine;

FROM InOut IMPORT WriteCard, WriteInt, WriteLn, WriteString;

TYPE
  Word = ARRAY [0 .. 9] OF CHAR;

VAR
  program: ARRAY [0 .. MostInstructions - 1] OF Instruction;
  programLength: Address;
  numbers: ARRAY [0 .. MostNumbers - 1] OF INTEGER;
  registers: ARRAY Register OF INTEGER;
  next: INTEGER;           (* the address of the next instruction *)
  isRunning: BOOLEAN;
  reason: End;             (* why it does not run any more *)
  words: ARRAY Operation OF Word;

PROCEDURE Place(address: Address; instruction: Instruction);
BEGIN
  program[address] := instruction
END Place;

PROCEDURE SetLength(length: Address);
BEGIN
  programLength := length
END SetLength;

PROCEDURE SetNumber(address: CARDINAL; number: INTEGER);
BEGIN
  numbers[address] := number
END SetNumber;

PROCEDURE Halt(why: End);
BEGIN
  isRunning := FALSE;
  reason := why
END Halt;

PROCEDURE IsInStore(address: INTEGER): BOOLEAN;
BEGIN
  RETURN (address >= 0) AND (address < MostNumbers)
END IsInStore;

PROCEDURE Load(to: Register; address: INTEGER);
BEGIN
  IF IsInStore(address) THEN
    registers[to] := numbers[address]
  ELSE
    Halt(noNumber)
  END
END Load;

PROCEDURE Store(from: Register; address: INTEGER);
BEGIN
  IF IsInStore(address) THEN
    numbers[address] := registers[from]
  ELSE
    Halt(noNumber)
  END
END Store;

PROCEDURE Divide(operation: Operation; VAR number: INTEGER; divisor: INTEGER);
BEGIN
  IF divisor <= 0 THEN
    Halt(badDivisor)
  ELSIF operation = divide THEN
    number := number DIV divisor
  ELSE
    number := number MOD divisor
  END
END Divide;

PROCEDURE Execute(instruction: Instruction);
BEGIN
  WITH instruction DO
    CASE operation OF
      set: registers[first] := argument
    | copy: registers[first] := registers[second]
    | load: Load(first, registers[second])
    | store: Store(first, registers[second])
    | add: INC(registers[first], registers[second])
    | subtract: DEC(registers[first], registers[second])
    | multiply: registers[first] := registers[first] * registers[second]
    | divide, rest: Divide(operation, registers[first], registers[second])
    | jump: next := argument
    | jumpLess:
        IF registers[first] < registers[second] THEN next := argument END
    | jumpEqual:
        IF registers[first] = registers[second] THEN next := argument END
    | call:
        registers[first] := next;
        next := argument
    | return: next := registers[first]
    | print:
        WriteInt(registers[first], 0);
        WriteLn
    | stop: Halt(stopped)
    END
  END
END Execute;

PROCEDURE IsInProgram(address: INTEGER): BOOLEAN;
BEGIN
  RETURN (address >= 0) AND (address < VAL(INTEGER, programLength))
END IsInProgram;

PROCEDURE Step;
(* Executes one instruction. It may change `next`. *)
VAR
  address: INTEGER;
BEGIN
  address := next;
  INC(next);
  Execute(program[address])
END Step;

PROCEDURE Start;
VAR
  register: Register;
BEGIN
  FOR register := 0 TO LastRegister DO registers[register] := 0 END;
  next := 0;
  isRunning := TRUE
END Start;

PROCEDURE Run(mostSteps: CARDINAL; VAR end: End; VAR steps: CARDINAL);
BEGIN
  Start;
  steps := 0;
  WHILE isRunning DO
    IF NOT IsInProgram(next) THEN
      Halt(noInstruction)
    ELSIF steps = mostSteps THEN
      Halt(tooManySteps)
    ELSE
      Step;
      INC(steps)
    END
  END;
  end := reason
END Run;

PROCEDURE WriteRegister(register: Register);
BEGIN
  WriteString(" R");
  WriteCard(register, 0)
END WriteRegister;

PROCEDURE WriteArgument(argument: INTEGER);
BEGIN
  WriteString(" ");
  WriteInt(argument, 0)
END WriteArgument;

PROCEDURE ShowOperands(instruction: Instruction);
(* Prints what an instruction has beside its operation. *)
BEGIN
  WITH instruction DO
    CASE operation OF
      stop:    (* nothing *)
    | jump: WriteArgument(argument)
    | return, print: WriteRegister(first)
    | set, call:
        WriteRegister(first);
        WriteArgument(argument)
    | jumpLess, jumpEqual:
        WriteRegister(first);
        WriteRegister(second);
        WriteArgument(argument)
    ELSE
      WriteRegister(first);
      WriteRegister(second)
    END
  END
END ShowOperands;

PROCEDURE Show;
VAR
  address: CARDINAL;
BEGIN
  address := 0;
  WHILE address < programLength DO
    WriteCard(address, 4);
    WriteString("  ");
    WriteString(words[program[address].operation]);
    ShowOperands(program[address]);
    WriteLn;
    INC(address)
  END
END Show;

PROCEDURE EnterWords;
BEGIN
  words[set] := "set";
  words[copy] := "copy";
  words[load] := "load";
  words[store] := "store";
  words[add] := "add";
  words[subtract] := "subtract";
  words[multiply] := "multiply";
  words[divide] := "divide";
  words[rest] := "rest";
  words[jump] := "jump";
  words[jumpLess] := "jump <";
  words[jumpEqual] := "jump =";
  words[call] := "call";
  words[return] := "return";
  words[print] := "print";
  words[stop] := "stop"
END EnterWords;

BEGIN
  programLength := 0;
  EnterWords
END Machine.
