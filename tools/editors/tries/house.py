"""What the compiler's own scanner says of a text: the class of each character that is no blank."""
import os
import re
import subprocess

from ..table import TOP, Table

ROW = re.compile(r"(\d+):(\d+) (.*)")
RUN = re.compile(r"[A-Za-z0-9]+")
SAMPLE = "editors/samples/Tokens.mod"
RECORD = "editors/samples/Tokens.txt"
FOLDERS = ("lib", "examples", "exercises")
WORD, STANDARD, NAME, NUMBER, STRING, SIGN, COMMENT = "word", "standard", "name", "number", "string", "sign", "comment"


def command():
    """How m2 is called: M2, or build/m2 if it is there; else nothing."""
    given = os.environ.get("M2") or f"{TOP}/build/m2"
    return given.split() if os.path.exists(given.split()[-1]) else None


def sources():
    """The paths of all modules of the library, the examples and the exercises."""
    found = []
    for folder in FOLDERS:
        for at, _, names in os.walk(f"{TOP}/{folder}"):
            found += [f"{at}/{it}" for it in names if it.endswith((".mod", ".def"))]
    return sorted(found)


def text_of(path):
    with open(path, encoding="ascii") as file:
        return file.read()


def rows_of(path):
    """The rows of `m2 show tokens`: of the program if it is there, else those that were recorded of the sample."""
    if command():
        return subprocess.run([*command(), "show", "tokens", path], capture_output=True, text=True, check=True).stdout.splitlines()
    with open(f"{TOP}/{RECORD}", encoding="ascii") as file:
        return file.read().splitlines()


def length_at(table, line, column):
    """How long the token is that begins here."""
    first = line[column]
    if first in table.forms["quotes"]:
        return line.index(first, column + 1) + 1 - column
    if first.isalnum():
        return RUN.match(line, column).end() - column
    return next(len(it) for it in table.signs() if line.startswith(it, column))


def class_of(table, said, first):
    if said.startswith("name "):
        return STANDARD if said[5:] in table.standard_names() else NAME
    if said.startswith(("number ", "character ")):
        return NUMBER
    if said.startswith("string "):
        return STRING
    return WORD if first.isalpha() else SIGN


def classes(path):
    """The class of each character of each line; a blank has none, and what belongs to no token is a comment."""
    table = Table()
    lines = text_of(path).split("\n")
    found = [[None if it.isspace() else COMMENT for it in line] for line in lines]
    for row in rows_of(path):
        place = ROW.fullmatch(row)
        if place[3] != "end":
            line, column = int(place[1]) - 1, int(place[2]) - 1
            kind = class_of(table, place[3], lines[line][column])
            for at in range(column, column + length_at(table, lines[line], column)):
                found[line][at] = kind
    return found


def tried_files():
    """The files whose colours are tried: the sample, and all sources if m2 is there to say what their tokens are."""
    return [f"{TOP}/{SAMPLE}", *(sources() if command() else [])]
