"""What tools/lay_out does with its words."""
import glob
import os
import sys

from . import clauses, files, proofs
from .lines import WIDTH

ROOT = os.path.dirname(os.path.dirname(os.path.dirname(os.path.abspath(__file__))))
PATTERNS = ("crates/*/specs/**/*.antt", "crates/*/src/**/*.rt")
LAYOUTS = {".antt": files.laid_out, ".rt": clauses.laid_out}
CHECK = "--check"
PROOFS = "--proofs"


def read(path):
    with open(path, encoding="utf-8") as file:
        return file.read()


def write(path, text):
    with open(path, "w", encoding="utf-8") as file:
        file.write(text)


def shown(path):
    """A path below the top, as it is written there."""
    return os.path.relpath(path, ROOT) if path.startswith(f"{ROOT}/") else path


def files_of(words):
    """The files that are named, or all; None for a word that is no file."""
    named = [it for it in words if it != CHECK]
    if not named:
        return sorted(it for pattern in PATTERNS for it in glob.glob(f"{ROOT}/{pattern}", recursive=True))
    return named if all(os.path.splitext(it)[1] in LAYOUTS and os.path.isfile(it) for it in named) else None


def long_lines(path, text):
    """Lines that are too long: of definitions all, of a source none, since `rt fmt` breaks what is code there."""
    return [it for it in text.split("\n") if len(it) > WIDTH] if path.endswith(".antt") else []


def main(words, usage):
    if words[:1] == [PROOFS] and all(os.path.isdir(f"{ROOT}/crates/{it}") for it in words[1:]):
        return proofs.main(ROOT, words[1:])
    paths = files_of(words)
    if paths is None:
        print(usage, file=sys.stderr)
        return 2
    is_check, status, left = CHECK in words, 0, 0
    for path in paths:
        before = read(path)
        after, reasons = LAYOUTS[os.path.splitext(path)[1]](before)
        left += len(long_lines(path, after))
        for why in reasons:
            print(f"{shown(path)}: {why}", file=sys.stderr)
        if after != before:
            print(shown(path))
            if not is_check:
                write(path, after)
        status = 1 if reasons or (is_check and after != before) else status
    print(f"{left} lines past {WIDTH} columns")
    return status
