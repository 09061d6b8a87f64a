"""The procedures that each program has: they print values, and they end a program of too many turns and calls."""

# a limit of turns and calls, and an empty value of a procedure type
COUNTERS = "VAR ticks: CARDINAL; none: Action;"
HELPERS = """PROCEDURE Tick;
BEGIN INC(ticks); IF ticks > 400 THEN Put("!"); HALT END
END Tick;
PROCEDURE Plus(a: INTEGER; b: CARDINAL): INTEGER;
BEGIN RETURN a DIV 2 + VAL(INTEGER, b MOD 7)
END Plus;
PROCEDURE ShowCard(n: CARDINAL);
BEGIN IF n >= 10 THEN ShowCard(n DIV 10) END; Put(CHR(n MOD 10 + ORD("0")))
END ShowCard;
PROCEDURE ShowInt(n: INTEGER);
BEGIN IF n < 0 THEN Put("-"); ShowCard(VAL(CARDINAL, -(n + 1)) + 1) ELSE ShowCard(n) END; Put(" ")
END ShowInt;
PROCEDURE ShowSet(s: BITSET);
VAR i: CARDINAL;
BEGIN FOR i := 0 TO 31 DO IF i IN s THEN ShowCard(i); Put(",") END END; Put(" ")
END ShowSet;
PROCEDURE ShowText(t: ARRAY OF CHAR);
VAR i: CARDINAL;
BEGIN FOR i := 0 TO HIGH(t) DO IF t[i] # 0C THEN Put(t[i]) ELSE Put(".") END END; Put(" ")
END ShowText;
"""
HELPER_NAMES = "Tick, Plus, ShowCard, ShowInt, ShowSet, ShowText"
