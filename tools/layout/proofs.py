"""Proofs in lines of at most 120 columns. A line is broken at blanks alone, and `rt fmt` lays out what was broken."""
import glob
import os
import subprocess

WIDTH = 120
MORE = 4
BRACKETS = {"(": 1, "[": 1, "{": 1, ")": -1, "]": -1, "}": -1}
# what stands well at the begin of a line, and at the end of one
BEHIND = {"∙": 5, "→": 5, "×": 5, "⊎": 5, "++": 4, "∷": 4, "≡": 3}
BEFORE = {"in": 6, "=": 5, "→": 1}
# what no line begins with, and none ends with
FIRST = ("=", ":", "↦", ";")
LAST = ("λ", "let", "module", "pub", "data", "record", "abbrev", "|")
TURNS = 6


def indentation(line):
    return len(line) - len(line.lstrip(" "))


def blanks(line):
    """The place of each blank behind the indentation that stands in no string, and in how many brackets."""
    depth, is_quoted = 0, False
    for at in range(indentation(line), len(line)):
        is_quoted ^= line[at] == '"'
        if not is_quoted:
            depth += BRACKETS.get(line[at], 0)
            if line[at] == " ":
                yield at, depth


def break_of(line):
    """The blank at which a line is broken: in its last two thirds, in the fewest brackets, at the best word, as far right as possible."""
    begin, best = indentation(line), None
    for at, depth in blanks(line):
        if at > WIDTH:
            break
        before, behind = line[:at].split(" ")[-1], line[at + 1:].split(" ")[0]
        if behind in FIRST or before in LAST:
            continue
        worth = max(BEFORE.get(before, 0), BEFORE.get(before[-1:], 0), BEHIND.get(behind, 0))
        key = at - begin >= (WIDTH - begin) // 3, -depth, worth, at
        best = max(best or key, key)
    return best[-1] if best else None


def lines_of(line):
    """A line in parts that are short enough, if it has blanks there."""
    parts, more = [], " " * (indentation(line) + MORE)
    while len(line) > WIDTH:
        at = break_of(line)
        if at is None:
            break
        parts.append(line[:at].rstrip())
        line = more + line[at + 1:]
    return [*parts, line]


def comment_of(line):
    """A comment in lines that are short enough."""
    parts, begin = [], " " * indentation(line) + "-- "
    while len(line) > WIDTH and line.rfind(" ", len(begin), WIDTH + 1) > 0:
        at = line.rfind(" ", len(begin), WIDTH + 1)
        parts.append(line[:at])
        line = begin + line[at + 1:]
    return [*parts, line]


def is_kept(line):
    """Whether a line stays as it is: it is short, or `rt fmt` lays it out, or a comment stands at its end."""
    bare = line.lstrip(" ")
    return len(line) <= WIDTH or bare.startswith(("use ", "pub use ")) or (" -- " in line and not bare.startswith("--"))


def laid_out(text):
    """A text of proofs with its long lines broken."""
    lines = text.split("\n")
    parts = ([it] if is_kept(it) else comment_of(it) if it.lstrip(" ").startswith("--") else lines_of(it) for it in lines)
    return "\n".join(part for it in parts for part in it)


def long_lines(text):
    return sum(len(it) > WIDTH and not it.lstrip(" ").startswith(("use ", "pub use ")) for it in text.split("\n"))


def read(path):
    with open(path, encoding="utf-8") as file:
        return file.read()


def proofs_of(crate):
    return sorted(glob.glob(f"{crate}/proofs/**/*.antt", recursive=True))


def break_lines(crate):
    """Breaks the long lines of a crate's proofs once. Whether there were any that can be broken."""
    some = False
    for path in proofs_of(crate):
        text = read(path)
        broken = laid_out(text)
        if broken != text:
            some = True
            with open(path, "w", encoding="utf-8") as file:
                file.write(broken)
    return some


def lay_out(crate):
    """Lays out the proofs in the folder of a crate. How many lines are left that are too long."""
    for _ in range(TURNS):
        if not break_lines(crate):
            break
        subprocess.run(["rt", "fmt"], cwd=crate, check=True, stdout=subprocess.DEVNULL)
    return sum(long_lines(read(it)) for it in proofs_of(crate))


def main(top, crates):
    """Lays out the proofs of these crates, and counts the long lines of all."""
    for crate in crates:
        print(f"{crate}: {lay_out(f'{top}/crates/{crate}')} lines of proofs past {WIDTH} columns")
    left = sum(long_lines(read(it)) for it in glob.glob(f"{top}/crates/*/proofs/**/*.antt", recursive=True))
    print(f"{left} lines of proofs past {WIDTH} columns in all crates")
    return 0
