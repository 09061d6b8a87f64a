"""Bodies: what stands between `MODULE M;` and `END M.` Rows as in `repetition`."""

TYPICAL_BODY = """
TYPE
  Row@ = ARRAY [0..9] OF CARDINAL;
  Node@ = RECORD key, count: CARDINAL; rows: Row@ END;
VAR
  nodes@: ARRAY [0..63] OF Node@; used@: CARDINAL;

(* Finds a key among the nodes; the number of nodes where there is none. *)
PROCEDURE Find@(key: CARDINAL): CARDINAL;
  VAR at: CARDINAL;
BEGIN
  at := 0;
  WHILE (used@ > at) AND (nodes@[at].key # key) DO
    INC(at)
  END;
  RETURN at
END Find@;

PROCEDURE Insert@(key: CARDINAL; VAR done: BOOLEAN);
  VAR at, i: CARDINAL;
BEGIN
  at := Find@(key);
  done := 64 > at;
  IF done THEN
    WITH nodes@[at] DO
      count := count + 1;
      FOR i := 0 TO 9 DO rows[i] := rows[i] * 2 + key MOD 10 END
    END;
    IF at = used@ THEN INC(used@) END
  END
END Insert@;
"""

BODIES = [
    ("arms", "VAR x: CARDINAL; BEGIN CASE x OF 0:", "|%:", " END"),
    ("labels", "VAR x: CARDINAL; BEGIN CASE x OF 0", ",%", ": END"),
    ("one label again and again", "VAR x: CARDINAL; BEGIN CASE x OF 0", ",0", ": END"),
    ("labels that are ranges", "VAR x: CARDINAL; BEGIN CASE x OF 0", ",%..%", ": END"),
    ("procedures", "", "PROCEDURE @;END @;", ""),
    ("procedures with variables", "", "PROCEDURE @(a:CHAR);VAR b:CHAR;BEGIN b:=a END @;", ""),
    ("procedures in a procedure", "PROCEDURE P; ", "PROCEDURE @;BEGIN P END @;", "END P;"),
    ("functions", "", "PROCEDURE @():CHAR;BEGIN RETURN 'a' END @;", ""),
    ("one procedure again and again", "", "PROCEDURE a;END a;", ""),
    ("variables used in turn", "", "VAR @:CHAR;PROCEDURE P@;BEGIN @:='a' END P@;", ""),
    ("constants used in turn", "", "CONST @='a';VAR V@:CHAR;PROCEDURE P@;BEGIN V@:=@ END P@;", ""),
    ("assignments", "VAR x: CARDINAL; BEGIN x:=0", ";x:=x", ""),
    ("names that are not declared", "BEGIN a", ";@", ""),
    ("terms of a sum", "VAR x: CARDINAL; BEGIN x:=x", "+x", ""),
    ("factors", "VAR x: CARDINAL; BEGIN x:=x", "*x", ""),
    ("truths", "VAR b: BOOLEAN; BEGIN b:=b", " OR b", ""),
    ("sums that are refused", "VAR b: BOOLEAN; BEGIN b:=b", "+b", ""),
    ("arguments", "PROCEDURE P(a: CARDINAL); END P; BEGIN P(1", ",1", ")"),
    ("arguments of a standard procedure", "VAR x: CARDINAL; BEGIN INC(x", ",1", ")"),
    ("calls", "PROCEDURE P(a: CARDINAL); END P; BEGIN P(1)", ";P(1)", ""),
    ("calls with VAR", "VAR x: CARDINAL; PROCEDURE P(VAR a: CARDINAL); END P; BEGIN P(x)", ";P(x)", ""),
    ("calls of a function", "VAR x: CHAR; PROCEDURE P(): CHAR; BEGIN RETURN 'a' END P; BEGIN x:=P()", ";x:=P()", ""),
    ("standard procedures", "VAR x: CARDINAL; BEGIN INC(x)", ";DEC(x,2)", ""),
    ("standard functions", "VAR c: CHAR; BEGIN c:=CAP(c)", ";c:=CHR(ORD(c))", ""),
    ("IF", "VAR b: BOOLEAN; BEGIN b:=TRUE", ";IF b THEN b:=b END", ""),
    ("WHILE", "VAR b: BOOLEAN; BEGIN b:=TRUE", ";WHILE b DO b:=b END", ""),
    ("REPEAT", "VAR b: BOOLEAN; BEGIN b:=TRUE", ";REPEAT b:=b UNTIL b", ""),
    ("LOOP", "BEGIN LOOP EXIT END", ";LOOP EXIT END", ""),
    ("FOR", "VAR x: CARDINAL; BEGIN x:=0", ";FOR x:=1 TO 9 DO END", ""),
    ("RETURN", "BEGIN RETURN", ";RETURN", ""),
    ("EXIT without LOOP", "BEGIN EXIT", ";EXIT", ""),
    ("CASE", "VAR x: CARDINAL; BEGIN x:=0", ";CASE x OF 1: x:=2 END", ""),
    ("WITH", "VAR r: RECORD f: CHAR END; BEGIN r.f:='a'", ";WITH r DO f:='a' END", ""),
    ("fields", "VAR r: RECORD f: CHAR END; BEGIN r.f:='a'", ";r.f:=r.f", ""),
    ("elements", "VAR a: ARRAY [0..9] OF CHAR; BEGIN a[0]:='a'", ";a[0]:=a[9]", ""),
    ("indexes of one element", "VAR a: ARRAY [0..9] OF CHAR; BEGIN a[0", ",0", "]:='a'"),
    ("strings", "VAR a: ARRAY [0..9] OF CHAR; BEGIN a:=''", ";a:='ab'", ""),
    ("sets", "VAR s: BITSET; BEGIN s:={1}", ";s:=s*{1,2..5}", ""),
    ("elements of a constant set", "VAR s: BITSET; BEGIN s:={0", ",1", "}"),
    ("imports in statements", "IMPORT D; VAR x: CARDINAL; BEGIN x:=0", ";x:=D.a", ""),
    ("a typical body", "\nIMPORT D;\nFROM D IMPORT t, a;\n", TYPICAL_BODY, ""),
]
