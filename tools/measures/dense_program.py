"""The command `dense`: one module of many arrays and functions, whose text is mostly statements and operators."""
from .builds import report_builds, write_files

ARRAY = "  data{k}: ARRAY [0..{most}] OF CARDINAL;\n"
FUNCTION = """PROCEDURE Work{k}(from: CARDINAL): CARDINAL;
VAR at, sum: CARDINAL;
BEGIN
  sum := from * {factor} + 1;
  FOR at := 0 TO {most} DO
    IF data{k}[at] > sum THEN sum := data{k}[at] ELSE data{k}[at] := sum END
  END;
  WHILE sum > {limit} DO sum := sum DIV 2 END;
  CASE sum MOD 4 OF 0: RETURN sum | 1, 2: RETURN at ELSE RETURN 0 END
END Work{k};
"""


def dense_text(count):
    """A program of so many global arrays, and as many functions with FOR, IF, WHILE and CASE."""
    numbers = [{"k": k, "most": k % 7 + 3, "factor": k % 5 + 2, "limit": k % 90 + 10} for k in range(count)]
    arrays = "".join(ARRAY.format(**it) for it in numbers)
    functions = "".join(FUNCTION.format(**it) for it in numbers)
    return f"MODULE Dense;\nVAR\n{arrays}{functions}END Dense.\n"


def dense(room, count):
    """Builds the program of so many arrays and functions."""
    print(f"{count} arrays and functions:")
    report_builds(write_files(f"{room}/dense", {"Dense.mod": dense_text(count)}), room, (1, 2, 4))
