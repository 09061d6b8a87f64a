"""The files of rows. `%%` ends a row; `%f NAME` begins a file, whose lines follow; other lines with a sign say what is expected."""
import collections
import re

from .asking import ROWS, bytes_of

# %n a name, %! a refusal, %m pages of memory; of programs: %w the bytes of a module, %c a piece of it, %p what is printed, %e the number
# of the end, %r the reductions after which it still runs, %a other numbers of workers build the same
SIGN = re.compile(r"%([n!mwcpera]) (.*)")
DEFINED = re.compile(r"DEFINITION MODULE (\w+)")

Given = collections.namedtuple("Given", "number files signs")


def rows_of(name):
    """The rows of a file, each as its lines."""
    lines = []
    for line in bytes_of(f"{ROWS}/{name}").decode("latin-1").split("\n"):
        if line == "%%":
            yield lines
            lines = []
        else:
            lines.append(line)


def given_in(name):
    """The rows of a file of programs: their numbers, the lines of each file in order, and what stands behind each sign."""
    for number, lines in enumerate(rows_of(name), 1):
        files, signs = [], collections.defaultdict(list)
        for line in lines:
            sign = SIGN.fullmatch(line)
            if line.startswith("%f "):
                files.append((line[3:], []))
            elif sign:
                signs[sign[1]].append(sign[2])
            else:
                files[-1][1].append(line)
        yield Given(number, files, signs)


def definitions():
    """The rows of definitions: what is expected of the last, and the files of all, by name. A text may import those before it."""
    for expected, *lines in rows_of("definitions.txt"):
        texts = "".join(f"{it}\n" for it in lines).split("%+\n")
        yield expected, {f"{DEFINED.search(it)[1]}.def": it for it in texts}
