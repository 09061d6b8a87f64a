MODULE PL0;
(* A compiler for Wirth's small language PL/0, of a module each for the text, the scanner, the names, the code and the parser,
   and an interpreter of the code. Some PL/0 programs are compiled and run: some right ones, and some with errors. *)

FROM InOut IMPORT WriteLn, WriteString;
FROM PL0Interpreter IMPORT Outcome, Run;
FROM PL0Parser IMPORT Compile;
FROM PL0Source IMPORT Add;
IMPORT PL0Generator, PL0Source;

CONST
  MostSteps = 20000;

PROCEDURE Begin(title: ARRAY OF CHAR);
(* Begins the text of a program. *)
BEGIN
  WriteString("== ");
  WriteString(title);
  WriteLn;
  PL0Source.Clear
END Begin;

PROCEDURE RunCode;
(* Executes what was compiled. *)
VAR outcome: Outcome;
BEGIN
  Run(MostSteps, outcome);
  CASE outcome OF
    ended: WriteString("ended")
  | stackIsFull: WriteString("stopped: the stack is full")
  | divisorIsBad: WriteString("stopped: a divisor is below 1")
  | tooManySteps: WriteString("stopped: too many steps")
  END;
  WriteLn
END RunCode;

PROCEDURE Process(isCodeShown: BOOLEAN);
(* Prints the text, compiles it, and executes it if it is right. *)
VAR isRight: BOOLEAN;
BEGIN
  PL0Source.Show;
  Compile(isRight);
  IF isRight THEN
    IF isCodeShown THEN PL0Generator.Show END;
    RunCode
  END;
  WriteLn
END Process;

PROCEDURE ProcessSum;
BEGIN
  Begin("the sum of 1 to 10, and its code");
  Add("const last = 10;");
  Add("var number, sum;");
  Add("begin");
  Add("  sum := 0; number := 1;");
  Add("  while number <= last do");
  Add("  begin");
  Add("    sum := sum + number;");
  Add("    number := number + 1");
  Add("  end;");
  Add("  !sum");
  Add("end.");
  Process(TRUE)
END ProcessSum;

PROCEDURE ProcessArithmetic;
(* the example of Wirth's book *)
BEGIN
  Begin("multiply, divide, greatest common divisor");
  Add("const m = 7, n = 85;");
  Add("var x, y, z, q, r;");
  Add("procedure multiply;");
  Add("  var a, b;");
  Add("begin a := x; b := y; z := 0;");
  Add("  while b > 0 do");
  Add("  begin");
  Add("    if odd b then z := z + a;");
  Add("    a := 2 * a; b := b / 2");
  Add("  end");
  Add("end;");
  Add("procedure divide;");
  Add("  var w;");
  Add("begin r := x; q := 0; w := y;");
  Add("  while w <= r do w := 2 * w;");
  Add("  while w > y do");
  Add("  begin q := 2 * q; w := w / 2;");
  Add("    if w <= r then begin r := r - w; q := q + 1 end");
  Add("  end");
  Add("end;");
  Add("procedure gcd;");
  Add("  var f, g;");
  Add("begin f := x; g := y;");
  Add("  while f # g do");
  Add("  begin");
  Add("    if f < g then g := g - f;");
  Add("    if g < f then f := f - g");
  Add("  end;");
  Add("  z := f");
  Add("end;");
  Add("begin");
  Add("  x := m; y := n; call multiply; !z;");
  Add("  x := 25; y := 3; call divide; !q; !r;");
  Add("  x := 84; y := 36; call gcd; !z");
  Add("end.");
  Process(FALSE)
END ProcessArithmetic;

PROCEDURE ProcessFibonacci;
BEGIN
  Begin("recursion: each call has variables of its own");
  Add("var n, result;");
  Add("procedure fibonacci;");
  Add("  var own, sum;");
  Add("begin");
  Add("  own := n;");
  Add("  if own < 2 then result := own;");
  Add("  if own >= 2 then");
  Add("  begin");
  Add("    n := own - 1; call fibonacci; sum := result;");
  Add("    n := own - 2; call fibonacci; result := sum + result");
  Add("  end");
  Add("end;");
  Add("begin");
  Add("  n := 10; call fibonacci; !result");
  Add("end.");
  Process(FALSE)
END ProcessFibonacci;

PROCEDURE ProcessPrimes;
BEGIN
  Begin("procedures in procedures: the prime numbers below 30");
  Add("const limit = 30;");
  Add("var number, isPrime;");
  Add("procedure test;");
  Add("  var divisor;");
  Add("  procedure try;");
  Add("    var quotient;");
  Add("  begin");
  Add("    quotient := number / divisor;");
  Add("    if quotient * divisor = number then isPrime := 0");
  Add("  end;");
  Add("begin");
  Add("  isPrime := 1; divisor := 2;");
  Add("  while divisor * divisor <= number do");
  Add("  begin call try; divisor := divisor + 1 end");
  Add("end;");
  Add("begin");
  Add("  number := 2;");
  Add("  while number < limit do");
  Add("  begin");
  Add("    call test;");
  Add("    if isPrime = 1 then !number;");
  Add("    number := number + 1");
  Add("  end");
  Add("end.");
  Process(FALSE)
END ProcessPrimes;

PROCEDURE ProcessScopes;
BEGIN
  Begin("names that are declared anew");
  Add("const a = 1;");
  Add("procedure p;");
  Add("  const a = 2;");
  Add("  procedure q; var a; begin a := 3; !a end;");
  Add("begin call q; !a end;");
  Add("begin call p; !a end.");
  Process(FALSE)
END ProcessScopes;

PROCEDURE ProcessSigns;
BEGIN
  Begin("the sign stands before a sum");
  Add("begin !-7 + 2 * (3 + 4) / 4; !-(1 - 100); !+5 end.");
  Process(FALSE)
END ProcessSigns;

PROCEDURE ProcessErrors;
(* texts that are no programs *)
BEGIN
  Begin("a name that is not declared");
  Add("var x;");
  Add("begin x := 1;");
  Add("  y := 2");
  Add("end.");
  Process(FALSE);
  Begin("an assignment to a constant");
  Add("const x = 1;");
  Add("x := 2.");
  Process(FALSE);
  Begin("a semicolon is missing");
  Add("var x;");
  Add("begin");
  Add("  x := 1");
  Add("  !x");
  Add("end.");
  Process(FALSE);
  Begin("a name is declared twice");
  Add("var x, y, x;");
  Add(".");
  Process(FALSE);
  Begin("no symbol");
  Add("var x;");
  Add("x := 2147483648.");
  Process(FALSE);
  Begin("an equals sign in place of :=");
  Add("var x;");
  Add("x = 3.");
  Process(FALSE);
  Begin("a procedure as a value");
  Add("procedure p; ;");
  Add("!1 + p.");
  Process(FALSE);
  Begin("the end is missing");
  Add("begin !1");
  Process(FALSE)
END ProcessErrors;

PROCEDURE ProcessFaults;
(* programs that are stopped *)
BEGIN
  Begin("a division by zero");
  Add("var x;");
  Add("begin !1; !1 / x; !2 end.");
  Process(FALSE);
  Begin("a recursion without end");
  Add("procedure p; call p;");
  Add("call p.");
  Process(FALSE);
  Begin("a loop without end");
  Add("while 1 = 1 do.");
  Process(FALSE)
END ProcessFaults;

BEGIN
  ProcessSum;
  ProcessArithmetic;
  ProcessFibonacci;
  ProcessPrimes;
  ProcessScopes;
  ProcessSigns;
  ProcessErrors;
  ProcessFaults
END PL0.
