IMPLEMENTATION MODULE PL0Interpreter;

FROM InOut IMPORT WriteInt, WriteLn;
FROM PL0Generator IMPORT Get, Instruction, Operation;

CONST
  StackLength = 500;
  StaticLink = 0;       (* the places of a frame that the machine needs for itself *)
  DynamicLink = 1;
  ReturnAddress = 2;
  LinkLength = 3;

VAR
  stack: ARRAY [1 .. StackLength] OF INTEGER;
  top: CARDINAL;        (* the last place of the stack that is in use *)
  frame: CARDINAL;      (* the first place of the current frame; 0 when the program has ended *)
  next: CARDINAL;       (* the address of the next instruction *)
  state: Outcome;       (* `ended` as long as nothing is wrong *)

PROCEDURE Push(value: INTEGER);
BEGIN
  IF top = StackLength THEN
    state := stackIsFull
  ELSE
    INC(top);
    stack[top] := value
  END
END Push;

PROCEDURE Pop(): INTEGER;
BEGIN
  DEC(top);
  RETURN stack[top + 1]
END Pop;

PROCEDURE PushTruth(isTrue: BOOLEAN);
BEGIN
  IF isTrue THEN Push(1) ELSE Push(0) END
END PushTruth;

PROCEDURE FrameAt(level: CARDINAL): CARDINAL;
(* The frame of the procedure that is `level` procedures further out than the current one. *)
VAR found: CARDINAL;
BEGIN
  found := frame;
  WHILE level > 0 DO
    found := stack[found + StaticLink];
    DEC(level)
  END;
  RETURN found
END FrameAt;

PROCEDURE EnterProcedure(level, address: CARDINAL);
(* Begins a frame behind the top of the stack. Its instruction `reserve` makes the top go behind it. *)
VAR caller: CARDINAL;
BEGIN
  IF top + LinkLength > StackLength THEN
    state := stackIsFull
  ELSE
    caller := frame;
    stack[top + 1 + StaticLink] := FrameAt(level);
    stack[top + 1 + DynamicLink] := caller;
    stack[top + 1 + ReturnAddress] := next;
    frame := top + 1;
    next := address
  END
END EnterProcedure;

PROCEDURE LeaveProcedure;
BEGIN
  top := frame - 1;
  next := stack[frame + ReturnAddress];
  frame := stack[frame + DynamicLink]
END LeaveProcedure;

PROCEDURE Reserve(length: CARDINAL);
(* Makes room for a frame of a length, with 0 in each variable. *)
VAR place: CARDINAL;
BEGIN
  IF top + length > StackLength THEN
    state := stackIsFull
  ELSE
    FOR place := frame + LinkLength TO frame + length - 1 DO stack[place] := 0 END;
    top := top + length
  END
END Reserve;

PROCEDURE Divide(left, right: INTEGER);
BEGIN
  IF right < 1 THEN
    state := divisorIsBad
  ELSE
    Push(left DIV right)
  END
END Divide;

PROCEDURE ExecuteOfOne(operation: Operation);
(* Executes an operation that pops one value. *)
VAR value: INTEGER;
BEGIN
  value := Pop();
  CASE operation OF
    negate: Push(-value)
  | isOdd: PushTruth(ODD(value))
  | write:
      WriteInt(value, 0);
      WriteLn
  END
END ExecuteOfOne;

PROCEDURE ExecuteOfTwo(operation: Operation);
(* Executes an operation that pops two values: the right one stands on top. *)
VAR left, right: INTEGER;
BEGIN
  right := Pop();
  left := Pop();
  CASE operation OF
    add: Push(left + right)
  | subtract: Push(left - right)
  | multiply: Push(left * right)
  | divide: Divide(left, right)
  | isEqual: PushTruth(left = right)
  | isUnequal: PushTruth(left # right)
  | isLess: PushTruth(left < right)
  | isLessOrEqual: PushTruth(left <= right)
  | isGreater: PushTruth(left > right)
  | isGreaterOrEqual: PushTruth(left >= right)
  END
END ExecuteOfTwo;

PROCEDURE Execute(instruction: Instruction);
VAR place: CARDINAL;
BEGIN
  WITH instruction DO
    CASE operation OF
      literal: Push(argument)
    | load:
        place := argument;
        Push(stack[FrameAt(level) + place])
    | store:
        place := argument;
        stack[FrameAt(level) + place] := Pop()
    | call: EnterProcedure(level, argument)
    | return: LeaveProcedure
    | reserve: Reserve(argument)
    | jump: next := argument
    | jumpIfFalse:
        IF Pop() = 0 THEN next := argument END
    | negate, isOdd, write: ExecuteOfOne(operation)
    | add .. isGreaterOrEqual: ExecuteOfTwo(operation)
    END
  END
END Execute;

PROCEDURE Start;
(* Makes the links of the program's own frame: no frame is around it, and none called it. *)
BEGIN
  state := ended;
  top := 0;
  frame := 1;
  next := 0;
  stack[frame + StaticLink] := 0;
  stack[frame + DynamicLink] := 0;
  stack[frame + ReturnAddress] := 0
END Start;

PROCEDURE Run(mostSteps: CARDINAL; VAR outcome: Outcome);
VAR
  instruction: Instruction;
  steps: CARDINAL;
BEGIN
  Start;
  steps := 0;
  WHILE (frame > 0) AND (state = ended) DO
    IF steps = mostSteps THEN
      state := tooManySteps
    ELSE
      Get(next, instruction);
      INC(next);
      Execute(instruction);
      INC(steps)
    END
  END;
  outcome := state
END Run;

END PL0Interpreter.
