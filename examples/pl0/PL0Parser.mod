IMPLEMENTATION MODULE PL0Parser;

FROM InOut IMPORT WriteCard, WriteLn, WriteString;
FROM PL0Generator IMPORT Emit, FixJump, Here, IsFull, Operation;
FROM PL0Names IMPORT Answer, CloseScope, Enter, Find, Kind, Level, Meaning, OpenScope, SetValue;
FROM PL0Scanner IMPORT column, GetSymbol, line, name, number, Start, Stop, Symbol, symbol;
IMPORT PL0Generator, PL0Names;

CONST
  LinkLength = 3;    (* the places at the beginning of a frame that the machine needs for itself *)

VAR
  isWrong: BOOLEAN;

PROCEDURE Error(message: ARRAY OF CHAR);
(* Prints what is wrong at the current symbol. Then the text is ended, so all procedures come to their ends. *)
BEGIN
  IF isWrong THEN RETURN END;
  isWrong := TRUE;
  WriteString("line ");
  WriteCard(line, 0);
  WriteString(", column ");
  WriteCard(column, 0);
  WriteString(": ");
  IF symbol = unknown THEN
    WriteString("this is no symbol of PL/0")
  ELSE
    WriteString(message)
  END;
  WriteLn;
  Stop
END Error;

PROCEDURE Accept(wanted: Symbol; message: ARRAY OF CHAR);
(* Goes on behind a symbol that has to be here. *)
BEGIN
  IF symbol = wanted THEN GetSymbol ELSE Error(message) END
END Accept;

PROCEDURE Generate(operation: Operation; level: CARDINAL; argument: INTEGER);
(* Generates an instruction. *)
BEGIN
  IF IsFull() THEN Error("the program is too long") END;
  Emit(operation, level, argument)
END Generate;

PROCEDURE Operate(operation: Operation);
(* Generates an instruction that has no argument. *)
BEGIN
  Generate(operation, 0, 0)
END Operate;

PROCEDURE LookUp(VAR meaning: Meaning);
(* What the current name means. After an error, it means the constant 0. *)
VAR isFound: BOOLEAN;
BEGIN
  meaning.kind := constant;
  meaning.level := 0;
  meaning.value := 0;
  IF symbol = aName THEN
    Find(name, meaning, isFound);
    IF NOT isFound THEN Error("this name is not declared") END
  ELSE
    Error("a name is missing")
  END
END LookUp;

PROCEDURE LevelsOut(meaning: Meaning): CARDINAL;
(* How many procedures further out a name is declared. *)
BEGIN
  RETURN Level() - meaning.level
END LevelsOut;

(* Expressions: the code that is generated pushes the value. *)

PROCEDURE NamedFactor;
VAR meaning: Meaning;
BEGIN
  LookUp(meaning);
  CASE meaning.kind OF
    constant: Generate(literal, 0, meaning.value)
  | variable: Generate(load, LevelsOut(meaning), meaning.value)
  | procedure: Error("a procedure has no value")
  END;
  GetSymbol
END NamedFactor;

PROCEDURE Factor;
BEGIN
  CASE symbol OF
    aName:
      NamedFactor
  | aNumber:
      Generate(literal, 0, number);
      GetSymbol
  | leftBracket:
      GetSymbol;
      Expression;
      Accept(rightBracket, '")" is missing')
  ELSE
    Error("an expression is missing")
  END
END Factor;

PROCEDURE Term;
VAR operator: Symbol;
BEGIN
  Factor;
  WHILE (symbol = times) OR (symbol = slash) DO
    operator := symbol;
    GetSymbol;
    Factor;
    IF operator = times THEN Operate(multiply) ELSE Operate(divide) END
  END
END Term;

PROCEDURE Expression;
VAR operator: Symbol;
BEGIN
  operator := symbol;
  IF (operator = plus) OR (operator = minus) THEN GetSymbol END;
  Term;
  IF operator = minus THEN Operate(negate) END;
  WHILE (symbol = plus) OR (symbol = minus) DO
    operator := symbol;
    GetSymbol;
    Term;
    IF operator = plus THEN Operate(add) ELSE Operate(subtract) END
  END
END Expression;

PROCEDURE Relate(relation: Symbol);
(* Generates the instruction for a relation. *)
BEGIN
  CASE relation OF
    equal: Operate(isEqual)
  | unequal: Operate(isUnequal)
  | less: Operate(isLess)
  | lessOrEqual: Operate(isLessOrEqual)
  | greater: Operate(isGreater)
  | greaterOrEqual: Operate(isGreaterOrEqual)
  ELSE
    Error("a relation is missing")
  END
END Relate;

PROCEDURE Comparison;
VAR relation: Symbol;
BEGIN
  Expression;
  relation := symbol;
  IF (relation >= equal) AND (relation <= greaterOrEqual) THEN
    GetSymbol;
    Expression
  END;
  Relate(relation)
END Comparison;

PROCEDURE Condition;
BEGIN
  IF symbol = oddWord THEN
    GetSymbol;
    Expression;
    Operate(isOdd)
  ELSE
    Comparison
  END
END Condition;

(* Statements *)

PROCEDURE Assignment;
VAR meaning: Meaning;
BEGIN
  LookUp(meaning);
  IF meaning.kind # variable THEN Error("this name is no variable") END;
  GetSymbol;
  Accept(becomes, '":=" is missing');
  Expression;
  Generate(store, LevelsOut(meaning), meaning.value)
END Assignment;

PROCEDURE CallStatement;
VAR meaning: Meaning;
BEGIN
  GetSymbol;
  LookUp(meaning);
  IF meaning.kind # procedure THEN Error("this name is no procedure") END;
  GetSymbol;
  Generate(call, LevelsOut(meaning), meaning.value)
END CallStatement;

PROCEDURE WriteStatement;
BEGIN
  GetSymbol;
  Expression;
  Operate(write)
END WriteStatement;

PROCEDURE BeginStatement;
BEGIN
  GetSymbol;
  Statement;
  WHILE symbol = semicolon DO
    GetSymbol;
    Statement
  END;
  Accept(endWord, '";" or "end" is missing')
END BeginStatement;

PROCEDURE IfStatement;
VAR over: CARDINAL;    (* the address of the jump over the statement *)
BEGIN
  GetSymbol;
  Condition;
  Accept(thenWord, '"then" is missing');
  over := Here();
  Operate(jumpIfFalse);
  Statement;
  FixJump(over)
END IfStatement;

PROCEDURE WhileStatement;
VAR again, over: CARDINAL;
BEGIN
  again := Here();
  GetSymbol;
  Condition;
  Accept(doWord, '"do" is missing');
  over := Here();
  Operate(jumpIfFalse);
  Statement;
  Generate(jump, 0, again);
  FixJump(over)
END WhileStatement;

PROCEDURE Statement;
BEGIN
  CASE symbol OF
    aName: Assignment
  | callWord: CallStatement
  | exclamation: WriteStatement
  | beginWord: BeginStatement
  | ifWord: IfStatement
  | whileWord: WhileStatement
  ELSE    (* the empty statement *)
  END
END Statement;

(* Declarations *)

PROCEDURE Declare(kind: Kind; value: INTEGER);
(* Declares the current name, and goes on behind it. *)
VAR answer: Answer;
BEGIN
  IF symbol = aName THEN
    Enter(name, kind, value, answer);
    CASE answer OF
      entered: GetSymbol
    | declaredAlready: Error("this name is declared already")
    | noRoom: Error("there are too many names")
    END
  ELSE
    Error("a name is missing")
  END
END Declare;

PROCEDURE Constant;
BEGIN
  GetSymbol;
  Declare(constant, 0);
  Accept(equal, '"=" is missing');
  IF symbol = aNumber THEN SetValue(number) END;
  Accept(aNumber, "a number is missing")
END Constant;

PROCEDURE Constants;
BEGIN
  Constant;
  WHILE symbol = comma DO Constant END;
  Accept(semicolon, '"," or ";" is missing')
END Constants;

PROCEDURE Variable(VAR frameLength: CARDINAL);
BEGIN
  GetSymbol;
  Declare(variable, frameLength);
  INC(frameLength)
END Variable;

PROCEDURE Variables(VAR frameLength: CARDINAL);
BEGIN
  Variable(frameLength);
  WHILE symbol = comma DO Variable(frameLength) END;
  Accept(semicolon, '"," or ";" is missing')
END Variables;

PROCEDURE Procedure;
BEGIN
  GetSymbol;
  Declare(procedure, Here());
  Accept(semicolon, '";" is missing');
  OpenScope;
  Block;
  CloseScope;
  Accept(semicolon, '";" is missing')
END Procedure;

PROCEDURE Block;
(* The code of a block begins with a jump to its statement, since the code of its procedures stands between. *)
VAR begin, frameLength: CARDINAL;
BEGIN
  begin := Here();
  Operate(jump);
  frameLength := LinkLength;
  IF symbol = constWord THEN Constants END;
  IF symbol = varWord THEN Variables(frameLength) END;
  WHILE symbol = procedureWord DO Procedure END;
  FixJump(begin);
  Generate(reserve, 0, frameLength);
  Statement;
  Operate(return)
END Block;

PROCEDURE Compile(VAR isRight: BOOLEAN);
BEGIN
  isWrong := FALSE;
  PL0Generator.Clear;
  PL0Names.Clear;
  Start;
  Block;
  Accept(period, '"." is missing');
  isRight := NOT isWrong
END Compile;

END PL0Parser.
