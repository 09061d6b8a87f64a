"""Definitions: what stands between `DEFINITION MODULE M;` and `END M.` Rows as in `repetition`."""
from .repetition import every

TYPICAL_DEFINITION = """
CONST
  Limit@ = 64; Half@ = Limit@ DIV 2; (* of one block *)
TYPE
  Index@ = [0..Limit@ - 1];
  Colour@ = (Red@, Green@, Blue@);
  Row@ = ARRAY Index@ OF CARDINAL;
  Node@ = RECORD
    key, count: CARDINAL;
    name: ARRAY [0..15] OF CHAR;
    rows: Row@
  END;
VAR
  first@, last@: Node@;
PROCEDURE Insert@(VAR node: Node@; key: CARDINAL; colour: Colour@): BOOLEAN;
PROCEDURE Find@(VAR node: Node@; name: ARRAY OF CHAR): CARDINAL;
"""

DEFINITIONS = [
    ("constants that name one another", "CONST a=1;", "@=^;", ""),
    ("one constant again and again", "CONST b=1;", "a=b;", ""),
    ("constants of what is not declared", "CONST ", "@=b;", ""),
    ("sums that name one another", "CONST a=1;", "@=^+1;", ""),
    ("terms", "CONST a=1", "+0", ";"),
    ("factors", "CONST a=1", "*1", ";"),
    ("calls", "CONST ", "@=MAX(CHAR)>CHR(7);", ""),
    ("elements of a set", "CONST a={0", ",1", "};"),
    ("ranges of a set", "CONST a={0", ",0..31", "};"),
    ("sets that name one another", "CONST a={};", "@=^+{0..31};", ""),
    ("a string", "CONST a='", "x", "';"),
    ("strings", "CONST ", "@='';", ""),
    ("long strings", "CONST ", "@='0123456789abcdefghijklmnopqrst';", ""),
    ("strings that name one another", "CONST a='0123456789abcdefghijklmnopqrst';", "@=^;", ""),
    ("types that name one another", "TYPE a=CHAR;", "@=^;", ""),
    ("constants of one enumeration", "TYPE t0=(a", ",@", ");"),
    ("one constant of an enumeration again and again", "TYPE t=(a", ",a", ");"),
    ("enumerations of 256 constants", "TYPE T=(a", every(255, ");T@=(E@", ",@"), ");"),
    ("subranges", "TYPE ", "@=[1..2];", ""),
    ("fields", "TYPE t0=RECORD ", "@:CHAR;", "END;"),
    ("fields of one list", "TYPE t0=RECORD a", ",@", ":CHAR END;"),
    ("one field again and again", "TYPE t=RECORD ", "a:CHAR;", "END;"),
    ("records of the record before, twice", "TYPE a=CHAR;", every(16, "@=CHAR;", "@=RECORD x,y:^ END;"), ""),
    ("arrays of the array before", "TYPE a=CHAR;", every(16, "@=CHAR;", "@=ARRAY BOOLEAN OF ^;"), ""),
    ("procedure types of the type before, twice", "TYPE a=CHAR;", "@=PROCEDURE(^,^);", ""),
    ("variables", "VAR ", "@:CHAR;", ""),
    ("variables of one list", "VAR a", ",@", ":CHAR;"),
    ("procedures", "", "PROCEDURE @;", ""),
    ("formals", "PROCEDURE a(a:CHAR", ";@:CHAR", ");"),
    ("formals of one list", "PROCEDURE a(a", ",@", ":CHAR);"),
    ("formals of a procedure type", "TYPE t0=PROCEDURE(CHAR", ",CHAR", ");"),
    ("modules that are imported", "IMPORT D", ",D", ";"),
    ("modules that are not there", "IMPORT D", ",@", ";"),
    ("names of one import", "FROM D IMPORT a", ",a", ";"),
    ("an enumeration that is imported again and again", "FROM D IMPORT t", ",t", ";"),
    ("imports of one name", "", "FROM D IMPORT a;", ""),
    ("names of a module", "IMPORT D; CONST ", "@=D.a;", ""),
    ("a typical definition", "\nIMPORT D;\nFROM D IMPORT t, a;\n", TYPICAL_DEFINITION, ""),
]
