MODULE Computer;
(* A small virtual machine and some programs for it: loops, a subroutine, numbers in the store that are sorted, and programs
   with errors. *)

FROM Assembler IMPORT Begin, Call, Finish, Jump, JumpIf, Mark, One, Set, Stop, Two;
FROM InOut IMPORT WriteCard, WriteLn, WriteString;
FROM Machine IMPORT End, Operation, Run, SetNumber, Show;

CONST
  MostSteps = 5000;

PROCEDURE Execute(title: ARRAY OF CHAR);
(* prints the program, executes it, and tells how it ended *)
VAR
  end: End;
  steps: CARDINAL;
BEGIN
  WriteString("== ");
  WriteString(title);
  WriteLn;
  Finish;
  Show;
  Run(MostSteps, end, steps);
  CASE end OF
    stopped: WriteString("stopped")
  | noInstruction: WriteString("no instruction")
  | noNumber: WriteString("no number")
  | badDivisor: WriteString("bad divisor")
  | tooManySteps: WriteString("too many steps")
  END;
  WriteString(" after ");
  WriteCard(steps, 0);
  WriteLn;
  WriteLn
END Execute;

PROCEDURE ExecuteCollatz;
(* how many steps lead from 27 to 1, if an even number is halved, and an odd one made threefold with 1 added *)
CONST
  Value = 0; Steps = 1; Unit = 2; Pair = 3; Triple = 4; Odd = 5;    (* registers *)
  Again = 1; Even = 2; Next = 3; Done = 4;                          (* labels *)
BEGIN
  Begin;
  Set(Value, 27);
  Set(Steps, 0);
  Set(Unit, 1);
  Set(Pair, 2);
  Set(Triple, 3);
  Mark(Again);
  JumpIf(jumpEqual, Value, Unit, Done);
  Two(copy, Odd, Value);
  Two(rest, Odd, Pair);
  JumpIf(jumpLess, Odd, Unit, Even);
  Two(multiply, Value, Triple);
  Two(add, Value, Unit);
  Jump(Next);
  Mark(Even);
  Two(divide, Value, Pair);
  Mark(Next);
  Two(add, Steps, Unit);
  Jump(Again);
  Mark(Done);
  One(print, Steps);
  Stop;
  Execute("the steps from 27 to 1")
END ExecuteCollatz;

PROCEDURE ExecuteDivisors;
(* greatest common divisors, by a subroutine that is called twice *)
CONST
  Left = 0; Right = 1; Kept = 2; Zero = 3; Back = 4;    (* registers *)
  Divisor = 1; Found = 2;                               (* labels *)
BEGIN
  Begin;
  Set(Zero, 0);
  Set(Left, 84);
  Set(Right, 36);
  Call(Back, Divisor);
  One(print, Left);
  Set(Left, 1071);
  Set(Right, 462);
  Call(Back, Divisor);
  One(print, Left);
  Stop;
  Mark(Divisor);
  JumpIf(jumpEqual, Right, Zero, Found);
  Two(copy, Kept, Right);
  Two(rest, Left, Right);
  Two(copy, Right, Left);
  Two(copy, Left, Kept);
  Jump(Divisor);
  Mark(Found);
  One(return, Back);
  Execute("greatest common divisors")
END ExecuteDivisors;

PROCEDURE SetNumbers;
(* puts eight numbers into the store, at 0 to 7 *)
BEGIN
  SetNumber(0, 31);
  SetNumber(1, -4);
  SetNumber(2, 15);
  SetNumber(3, 92);
  SetNumber(4, -65);
  SetNumber(5, 35);
  SetNumber(6, 15);
  SetNumber(7, 0)
END SetNumbers;

PROCEDURE ExecuteSort;
(* Sorts the numbers: each goes down in the store as long as the one below it is greater. Then it prints them. *)
CONST
  Outer = 0; Inner = 1; Below = 2; Lower = 3; Upper = 4; Zero = 5; Unit = 6; Length = 7;    (* registers *)
  NextOuter = 1; NextInner = 2; Swap = 3; Settled = 4; Sorted = 5; Print = 6; Done = 7;       (* labels *)
BEGIN
  SetNumbers;
  Begin;
  Set(Zero, 0);
  Set(Unit, 1);
  Set(Length, 8);
  Set(Outer, 1);
  Mark(NextOuter);
  JumpIf(jumpEqual, Outer, Length, Sorted);
  Two(copy, Inner, Outer);
  Mark(NextInner);
  JumpIf(jumpEqual, Inner, Zero, Settled);
  Two(copy, Below, Inner);
  Two(subtract, Below, Unit);
  Two(load, Lower, Below);
  Two(load, Upper, Inner);
  JumpIf(jumpLess, Upper, Lower, Swap);
  Jump(Settled);
  Mark(Swap);
  Two(store, Upper, Below);
  Two(store, Lower, Inner);
  Two(copy, Inner, Below);
  Jump(NextInner);
  Mark(Settled);
  Two(add, Outer, Unit);
  Jump(NextOuter);
  Mark(Sorted);
  Set(Outer, 0);
  Mark(Print);
  JumpIf(jumpEqual, Outer, Length, Done);
  Two(load, Lower, Outer);
  One(print, Lower);
  Two(add, Outer, Unit);
  Jump(Print);
  Mark(Done);
  Stop;
  Execute("eight numbers are sorted")
END ExecuteSort;

PROCEDURE ExecuteErrors;
(* programs that the machine cannot execute to their end *)
CONST
  Again = 1;    (* label *)
BEGIN
  Begin;
  Set(0, 7);
  One(print, 0);
  Two(divide, 0, 1);
  Execute("a divisor of 0");
  Begin;
  Set(0, 64);
  Two(load, 1, 0);
  Execute("an address behind the store");
  Begin;
  Set(0, -1);
  One(return, 0);
  Execute("an instruction before the first");
  Begin;
  One(print, 0);
  Execute("no stop");
  Begin;
  Mark(Again);
  Jump(Again);
  Execute("a loop without end")
END ExecuteErrors;

BEGIN
  ExecuteCollatz;
  ExecuteDivisors;
  ExecuteSort;
  ExecuteErrors
END Computer.
