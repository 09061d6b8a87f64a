"""Damages, the mends that are shown for them, and the table of what came."""
import json
import os
import random
import subprocess
import sys
import tempfile
from concurrent.futures import ThreadPoolExecutor

from .kinds import KINDS
from .text import are_alike

TOP = os.path.dirname(os.path.dirname(os.path.dirname(os.path.abspath(__file__))))
M2 = os.path.abspath(os.environ.get("M2", f"{TOP}/build/m2"))
COLUMNS = ["damages", "gives back", "accepted first", "accepted", "shown", "refused"]


def checked(folder, main):
    """The objects that `m2 check` prints for a program."""
    ran = subprocess.run([M2, "check", "--format", "json", "--lib", f"{TOP}/lib", main], cwd=folder, capture_output=True, timeout=60)
    return [json.loads(line) for line in ran.stdout.splitlines()], ran.returncode


def offset_of(text, line, column):
    at = 0
    for _ in range(line - 1):
        at = text.index(b"\n", at) + 1
    return at + column - 1


def followed(text, edits):
    """A text with edits, whose places are those of the text as it is."""
    places = [(offset_of(text, it["line"], it["column"]), offset_of(text, it["end_line"], it["end_column"]), it["text"].encode()) for it in edits]
    for begin, end, new in sorted(places, key=lambda it: it[0], reverse=True):
        text = text[:begin] + new + text[end:]
    return text


def programs():
    """(folder, program file, files) of each program that is damaged."""
    found = []
    for top in ("examples", "exercises"):
        for name in sorted(os.listdir(f"{TOP}/{top}")):
            folder = f"{TOP}/{top}/{name}"
            if not os.path.isdir(folder):
                continue
            files = {it: open(f"{folder}/{it}", encoding="latin-1").read() for it in sorted(os.listdir(folder)) if it.endswith((".mod", ".def"))}
            mains = [it for it in files if files[it].lstrip().startswith(("MODULE", "(*")) and "IMPLEMENTATION" not in files[it][:2000] and it.endswith(".mod")]
            found += [(name, main, files) for main in mains]
    return found


def write(folder, files):
    for name, text in files.items():
        with open(f"{folder}/{name}", "w", encoding="latin-1", newline="") as file:
            file.write(text)


def judge(text, damaged, main, files, room):
    """What comes of one damage: the numbers of its row, and what is worth a look."""
    write(room, {**files, main: damaged})
    rows, status = checked(room, main)
    if status == 0:
        return None, None
    rows = [it for it in rows if it["file"] == main]
    edits = [it["edit"] for it in rows if it["edit"]]
    if not edits:
        return (1, 0, 0, 0, 0, 0), rows
    first = followed(damaged.encode("latin-1"), edits[:1])
    said = "the program is accepted" in rows[0]["mend"]
    write(room, {main: first.decode("latin-1")})
    is_first = checked(room, main)[1] == 0
    is_some = is_first
    if not is_first and len(edits) == len(rows):
        write(room, {main: followed(damaged.encode("latin-1"), edits).decode("latin-1")})
        is_some = checked(room, main)[1] == 0
    gives_back = is_first and are_alike(text, first.decode("latin-1"))
    return (1, int(gives_back), int(is_first), int(is_some), 1, int(said and not is_first)), rows


def damaged_texts(count, seed):
    """(kind, program, file's text, damaged text) for each damage."""
    rng, every = random.Random(seed), programs()
    kinds = list(KINDS)
    made = 0
    while made < count:
        kind = kinds[made % len(kinds)]
        name, main, files = rng.choice(every)
        damaged = KINDS[kind](rng, files[main])
        if damaged is not None and damaged != files[main]:
            made += 1
            yield kind, main, files, damaged


def row(name, counts):
    return f"| {name} | " + " | ".join(str(it) for it in counts) + " |"


def main(words, usage):
    if len(words) > 1 or not all(it.isdigit() for it in words):
        print(usage, file=sys.stderr)
        return 2
    count, table, rest = int(words[0]) if words else 1600, {}, []
    with tempfile.TemporaryDirectory(prefix="damages-") as top, ThreadPoolExecutor(int(os.environ.get("JOBS", "2"))) as pool:
        def one(work):
            number, (kind, main_file, files, damaged) = work
            room = f"{top}/{number}"
            os.mkdir(room)
            counts, rows = judge(files[main_file], damaged, main_file, files, room)
            if counts and (not counts[1] or counts[5]) and os.environ.get("KEEP"):
                rest.append((kind, main_file, counts, rows, damaged, files[main_file]))
            subprocess.run(["rm", "-rf", room], check=True)
            return kind, counts
        for kind, counts in pool.map(one, enumerate(damaged_texts(count, int(os.environ.get("SEED", "1"))))):
            if counts:
                table[kind] = [sum(it) for it in zip(table.get(kind, [0] * len(COLUMNS)), counts)]
    print("| Damage | " + " | ".join(COLUMNS) + " |\n" + "|---" * (len(COLUMNS) + 1) + "|")
    for kind in KINDS:
        print(row(kind, table.get(kind, [0] * len(COLUMNS))))
    total = [sum(it[at] for it in table.values()) for at in range(len(COLUMNS))]
    print(row("all", total))
    if os.environ.get("KEEP"):
        with open(os.environ["KEEP"], "w", encoding="utf-8") as file:
            json.dump(rest, file)
    return 1 if total[-1] else 0
