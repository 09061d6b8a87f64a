"""The words of tools/benchmark, and what each command is."""
import os
import sys
import tempfile

from .compilers import compilers
from .dense_program import dense
from .large_programs import chain, corpus, imports
from .processes import FAILED, M2, M2C, M2RUN, TOP, measure
from .ratios import ratios
from .renewals import builds
from .repeats import repeats
from .runs import run

# for each number what it is where it is left out, and the greatest
COMMANDS = {
    "repeats": (repeats, [(1 << 20, 1 << 20)]),
    "corpus": (corpus, [(64, 511), (300, 900)]),
    "compilers": (compilers, [(64, 511), (300, 900)]),
    "builds": (builds, [(60, 511), (22, 900)]),
    "dense": (dense, [(2000, 2700)]),
    "chain": (chain, [(500, 511)]),
    "imports": (imports, [(1023, 1024), (500, 1024)]),
    "run": (run, [(100, 1_000_000)]),
    "ratios": (ratios, [(20, 60_000)]),
}


def numbers_of(words, limits):
    """The numbers of a command, or None where the words are wrong."""
    if len(words) > len(limits) or not all(it.isdecimal() for it in words):
        return None
    numbers = [int(it) for it in words] + [usual for usual, _ in limits[len(words) :]]
    return numbers if all(0 < it <= most for it, (_, most) in zip(numbers, limits)) else None


def main(words, usage):
    """The command: its words without its name. Answers the status."""
    command, limits = COMMANDS.get(words[0] if words else "", (None, []))
    numbers = numbers_of(words[1:], limits)
    if not command or not numbers:
        print(usage, file=sys.stderr)
        return 2
    for program in (M2, M2C, M2RUN):
        if not os.path.exists(program):
            print(f"benchmark: {os.path.relpath(program, TOP)} is not there: make build makes it", file=sys.stderr)
            return 1
    with tempfile.TemporaryDirectory(prefix="benchmark-") as room:
        start = measure([M2C, "--version"])
        print(f"a start alone takes {start.seconds:.3f} s of processor time, and {start.memory / 1e6:.1f} MB")
        command(room, *numbers)
    return 1 if FAILED else 0
