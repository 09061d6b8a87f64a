"""The programs that are executed: some without an end, and some that end."""

NEXT = "PROCEDURE Next(n: CARDINAL): CARDINAL; BEGIN RETURN (n * 3 + 1) MOD 65536 END Next;"
FIBONACCI = """PROCEDURE F(n: CARDINAL): CARDINAL;
BEGIN
  IF n < 2 THEN RETURN n END;
  RETURN F(n - 1) + F(n - 2)
END F;"""

# programs: the declarations, and what a loop without an end does
PROGRAMS = {
    "arithmetic": ("VAR x, y: CARDINAL;", "x := (x * 1103 + 12345) MOD 65536; y := (y + x DIV 7) MOD 1000"),
    "elements": ("VAR a: ARRAY [0..999] OF CARDINAL; i: CARDINAL;", "FOR i := 0 TO 998 DO a[i] := a[i + 1] + 1 END"),
    "fields": ("VAR r: RECORD x, y: CARDINAL END;", "WITH r DO x := (x + 1) MOD 1000; IF x < 500 THEN y := x END END"),
    "whole arrays": ("TYPE T = ARRAY [0..999] OF CARDINAL; VAR a, b: T;", "a := b; b := a"),
    "sets": ("VAR s: BITSET; x: CARDINAL;", "x := (x + 7) MOD 32; IF x IN s THEN EXCL(s, x) ELSE INCL(s, x) END"),
    "cases": ("VAR x, y: CARDINAL;", "x := (x + 5) MOD 8; CASE x OF 0: y := 1 | 1..3: y := 2 | 4, 6: y := 3 ELSE END"),
    "calls": (f"VAR x: CARDINAL; {NEXT}", "x := Next(x)"),
    "recursive calls": (f"VAR x: CARDINAL; {FIBONACCI}", "x := F(20)"),
    "calls of a variable": (f"VAR x: CARDINAL; p: PROCEDURE(CARDINAL): CARDINAL; {NEXT}", "p := Next; x := p(x)"),
    "output": ("", 'Put("x")'),
}

SIEVE = """VAR prime: ARRAY [0..8190] OF BOOLEAN; i, k, count: CARDINAL;
PROCEDURE Work;
BEGIN
  count := 0;
  FOR i := 0 TO 8190 DO prime[i] := TRUE END;
  FOR i := 0 TO 8190 DO
    IF prime[i] THEN
      k := i + i + 3;
      WHILE 8190 >= k DO prime[k] := FALSE; k := k + i + i + 3 END;
      INC(count)
    END
  END
END Work;"""
MATRIX = """VAR a, b, c: ARRAY [0..39] OF ARRAY [0..39] OF CARDINAL; i, j, k: CARDINAL;
PROCEDURE Work;
BEGIN
  FOR i := 0 TO 39 DO FOR j := 0 TO 39 DO a[i][j] := i + j; b[i][j] := i * j; c[i][j] := 0 END END;
  FOR i := 0 TO 39 DO FOR j := 0 TO 39 DO FOR k := 0 TO 39 DO
    c[i][j] := (c[i][j] + a[i][k] * b[k][j]) MOD 65536
  END END END
END Work;"""
QUICKSORT = """VAR a: ARRAY [0..1999] OF CARDINAL; x, n: CARDINAL;
PROCEDURE Sort(low, high: INTEGER);
  VAR i, j: INTEGER; pivot, t: CARDINAL;
BEGIN
  i := low; j := high; pivot := a[(low + high) DIV 2];
  REPEAT
    WHILE a[i] < pivot DO i := i + 1 END;
    WHILE pivot < a[j] DO j := j - 1 END;
    IF i <= j THEN t := a[i]; a[i] := a[j]; a[j] := t; i := i + 1; j := j - 1 END
  UNTIL i > j;
  IF low < j THEN Sort(low, j) END;
  IF i < high THEN Sort(i, high) END
END Sort;
PROCEDURE Work;
BEGIN
  x := 17;
  FOR n := 0 TO 1999 DO x := (x * 1103 + 12345) MOD 65536; a[n] := x END;
  Sort(0, 1999)
END Work;"""
QUEENS = """VAR row: ARRAY [0..7] OF BOOLEAN; up, down: ARRAY [0..14] OF BOOLEAN; count, k: CARDINAL;
PROCEDURE Place(column: CARDINAL);
  VAR r: CARDINAL;
BEGIN
  IF column = 8 THEN INC(count); RETURN END;
  FOR r := 0 TO 7 DO
    IF row[r] AND up[r + column] AND down[r + 7 - column] THEN
      row[r] := FALSE; up[r + column] := FALSE; down[r + 7 - column] := FALSE;
      Place(column + 1);
      row[r] := TRUE; up[r + column] := TRUE; down[r + 7 - column] := TRUE
    END
  END
END Place;
PROCEDURE Work;
BEGIN
  count := 0;
  FOR k := 0 TO 7 DO row[k] := TRUE END;
  FOR k := 0 TO 14 DO up[k] := TRUE; down[k] := TRUE END;
  Place(0)
END Work;"""
STRINGS = """VAR text, other: ARRAY [0..79] OF CHAR; i, j, same: CARDINAL;
PROCEDURE Length(VAR s: ARRAY OF CHAR): CARDINAL;
  VAR n: CARDINAL;
BEGIN
  n := 0;
  WHILE (HIGH(s) >= n) AND (s[n] # 0C) DO INC(n) END;
  RETURN n
END Length;
PROCEDURE Work;
BEGIN
  text := "the quick brown fox jumps over the lazy dog";
  same := 0;
  FOR i := 1 TO 100 DO
    other := text;
    FOR j := 0 TO Length(other) - 1 DO other[j] := CAP(other[j]); IF other[j] = text[j] THEN INC(same) END END
  END
END Work;"""
COPIES = (
    "VAR a, b: ARRAY [0..3999] OF CARDINAL; i: CARDINAL; "
    "PROCEDURE Work; BEGIN FOR i := 1 TO 10 DO a := b; b := a END END Work;"
)

# programs that end: what Work does
WORKS = {
    "sieve": SIEVE,
    "matrix product": MATRIX,
    "recursive Fibonacci": f"VAR x: CARDINAL; {FIBONACCI} PROCEDURE Work; BEGIN x := F(18) END Work;",
    "quicksort": QUICKSORT,
    "copies": COPIES,
    "strings": STRINGS,
    "eight queens": QUEENS,
}
