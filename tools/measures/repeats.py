"""The command `repeats`: a text for each construct that can repeat, each built once."""
from .body_texts import BODIES
from .builds import build_words, outcome, size_of, write_files
from .definition_texts import DEFINITIONS
from .processes import measure
from .read_texts import READ
from .repetition import name_of, text_of

SLOWEST = 5
# so much memory that the variables of every text fit
PAGES = 1024


def imported_files():
    """The module D, from which texts import: a constant, and an enumeration of 256 constants."""
    constants = ",".join(f"C{name_of(number)}" for number in range(256))
    definition = f"DEFINITION MODULE D; CONST a=1; TYPE t=({constants});END D."
    return {"D.def": definition, "D.mod": "IMPLEMENTATION MODULE D; END D."}


def read_files(size, *row):
    """The files of a text that has to be read."""
    return {"m.mod": text_of(size, *row)}


def definition_files(size, head, piece, tail):
    """The files of a definition: with its implementation, and a program that imports it."""
    text = text_of(size, f"DEFINITION MODULE M; {head}", piece, f"{tail} END M.")
    beside = {"M.mod": "IMPLEMENTATION MODULE M; END M.", "P.mod": "MODULE P; IMPORT M; END P."}
    return {**imported_files(), "M.def": text, **beside}


def body_files(size, head, piece, tail):
    """The files of a program module."""
    return {**imported_files(), "M.mod": text_of(size, f"MODULE M; {head}", piece, f"{tail} END M.")}


KINDS = {"read": (READ, read_files), "definition": (DEFINITIONS, definition_files), "body": (BODIES, body_files)}


def texts_of(size):
    """For each construct: the kind and its name, and the texts of its files."""
    for kind, (rows, files_of) in KINDS.items():
        for name, *row in rows:
            yield f"{kind}: {name}", files_of(size, *row)


def repeats(room, size):
    """Builds a text of this size for each construct, and reports them, and the slowest again."""
    print("seconds of processor time, bytes of memory a byte of text, what comes of it, the kind and the construct")
    lines = []
    for name, texts in texts_of(size):
        files = write_files(f"{room}/texts", texts)
        ran = measure(build_words(files, f"{room}/out", pages=PAGES))
        each = ran.memory / size_of(files)
        lines.append((ran.seconds, f"{ran.seconds:7.3f} {each:7.1f}  {outcome(ran):10}  {name}"))
        print(lines[-1][1], flush=True)
    print("the slowest:")
    for _, line in sorted(lines, reverse=True)[:SLOWEST]:
        print(line)
