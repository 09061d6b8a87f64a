"""The grammar for tree-sitter: on all sources, and on the same with a token taken out, against what m2 refuses."""
import os
import random
import re
import subprocess

from .house import ROW, command, rows_of, sources, text_of
from .painters import HERE, called

TEXTS = 200
SEED = 70
REFUSED = re.compile(r":(\d+:\d+): refusal (\d+)$", re.M)
# a token that does not fit; a grammar knows nothing of closing names and of levels
MISFITS = ("10", "13")


def trees(files):
    """What the grammar says of each file: yes, or the place with which no tree goes on."""
    return called(["node", f"{HERE}/grammar.mjs", *files]).splitlines()


def without_token(source, chance):
    """A text without one of its tokens, by its place."""
    place = ROW.fullmatch(chance.choice(rows_of(source)[:-1]))
    lines = text_of(source).split("\n")
    line, column = int(place[1]) - 1, int(place[2]) - 1
    length = len(re.match(r"[A-Za-z0-9]+|\"[^\"]*\"|'[^']*'|:=|\.\.|<=|>=|<>|.", lines[line][column:])[0])
    lines[line] = lines[line][:column] + " " * length + lines[line][column + length:]
    return "\n".join(lines)


def broken_files(room):
    """Files of which a token was taken out."""
    chance, found = random.Random(SEED), []
    for number in range(TEXTS):
        source = chance.choice(sources())
        path = f"{room}/{number}{os.path.splitext(source)[1]}"
        with open(path, "w", encoding="ascii") as file:
            file.write(without_token(source, chance))
        found.append(path)
    return found


def house_says(path):
    """yes, or the place where m2 refuses a token that does not fit; nothing if it refuses something else."""
    ran = subprocess.run([*command(), "show", "tree", path], capture_output=True, text=True, check=False)
    found = REFUSED.search(ran.stdout)
    if found and found[2] not in MISFITS:
        return None
    return found[1] if found else "yes"


def differences(room):
    """Each broken file of which the grammar says something else than m2, and how many were compared."""
    files = broken_files(room)
    house = [house_says(it) for it in files]
    rows = [f"{os.path.basename(path)}: {ours}, and m2 says {theirs}" for path, ours, theirs in zip(files, trees(files), house) if theirs not in (None, ours)]
    return rows, sum(1 for it in house if it is not None)
