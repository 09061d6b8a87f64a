"""Rows of the language: definitions, programs that are refused, and programs that run."""
import os
import re

from .asking import M2, M2C, M2RUN, Row, Wrong, called, expect, expect_answer, modules_in, written
from .forms import definitions, given_in

REFUSED = re.compile(rb"^\S+:\d+:\d+: refusal \d+$", re.MULTILINE)
NAME = re.compile(r"MODULE\s+(\w+)")
# the files of refused programs, and the numbers of workers that build each
WORKERS_OF_REFUSED = {"refusals.txt": (2,), "corners.txt": (2,), "rows-refusals.txt": (1, 8), "explanations.txt": (2,)}
WORKERS_OF_PROGRAMS = (1, 8)
OTHER_WORKERS = (2, 64)
PAGES = "16"
# what stands behind the name of a second file of this name: refusals are in order of file names, and it comes behind the first
AGAIN = "~"
FAULTS = {1: "range", 2: "overflow", 3: "index", 4: "divisor", 5: "case", 6: "no return", 7: "empty procedure", 8: "storage"}
RUNNING = 4


def ask_definition(expected, files, folder):
    """The last definition is taken, or has this refusal alone."""
    written(folder, files)
    name = list(files)[-1]
    refused = [] if expected == "ok" else ["{0}:{1}:{2}: refusal {3}".format(name, *expected.split()).encode()]
    came = called(M2, ["compile", name], folder)
    expect(f"m2 compile {name}", (len(refused), refused), (came.status, REFUSED.findall(came.out)))


def definition_rows():
    for number, (expected, files) in enumerate(definitions(), 1):
        yield Row(f"definitions.txt {number}", lambda folder, it=(expected, files): ask_definition(*it, folder))


def paths_of(files):
    """Paths for the files of a row: of files with one name, the later get others."""
    paths = []
    for name, _ in files:
        while name in paths:
            name += AGAIN
        paths.append(name)
    return paths


def ask_refusals(given, workers, folder):
    """m2c reports what is expected of these files, and nothing else. Texts have no line break at the end, nor at the begin."""
    paths = paths_of(given.files)
    written(folder, {path: "\n".join(lines).lstrip("\n") for path, (_, lines) in zip(paths, given.files)})
    wanted = "".join(f"{it}\n" for it in given.signs["!"]).encode()
    for count in workers:
        words = ["--workers", str(count), "--memory", *(given.signs["m"] or [PAGES]), "--out", ".", *paths]
        came = called(M2C, words, folder)
        asked = f"m2c {' '.join(words[:4])}"
        expect(f"{asked}, reports", wanted, came.out.replace(AGAIN.encode(), b""))
        expect(f"{asked}, status and standard error", (int(bool(wanted)), b""), (came.status, came.err))


def refusal_rows(name):
    for given in given_in(name):
        yield Row(f"{name} {given.number}", lambda folder, it=given: ask_refusals(it, WORKERS_OF_REFUSED[name], folder))


def texts_of(given):
    """The files of a program, by their names. Each line has an end."""
    return {name: "".join(f"{it}\n" for it in lines) for name, lines in given.files}


def built_by(workers, given, folder):
    """What this many workers build: a folder, and the bytes of its modules."""
    out = f"by{workers}"
    os.mkdir(f"{folder}/{out}")
    words = ["--workers", str(workers), "--memory", *(given.signs["m"] or [PAGES]), "--out", out, *(name for name, _ in given.files)]
    expect_answer(M2C, words, folder, 0, b"")
    return out, modules_in(f"{folder}/{out}")


def by_name(lines):
    """Names, each with the bytes that stand behind it."""
    return [(name, bytes.fromhex(digits)) for name, digits in (it.split(" ") for it in lines)]


def compare_modules(given, modules):
    """If modules are stated, these have all their bytes. Pieces stand in theirs."""
    stated = dict(by_name(given.signs["w"]))
    for name in sorted(stated.keys() | modules.keys() if stated else ()):
        expect(f"the bytes of {name}", stated.get(name), modules.get(name))
    for name, piece in by_name(given.signs["c"]):
        if piece not in modules.get(name, b""):
            raise Wrong(f"{name}: expected the piece {piece.hex()}, came {modules.get(name, b'').hex()}")


def expect_end(given, out, folder):
    """What is built prints what is expected, and ends so."""
    end = int(given.signs["e"][0])
    err = f"fault {end}: {FAULTS[end]}\n" if end in FAULTS else ""
    expect_answer(M2RUN, [out], folder, int(end in FAULTS), bytes.fromhex(given.signs["p"][0]), err.encode())


def expect_to_go_on(given, out, folder):
    """What is built still runs after so many reductions. It prints what is expected again and again."""
    words, piece = ["--steps", given.signs["r"][0], out], bytes.fromhex(given.signs["p"][0])
    came = called(M2RUN, words, folder)
    asked = f"m2run {' '.join(words)}"
    expect(f"{asked}, status and standard error", (RUNNING, b""), (came.status, came.err))
    turns = len(came.out) // len(piece) + 1 if piece else 0
    expect(f"{asked}, prints", (piece * turns)[:len(came.out)], came.out)
    expect(f"{asked}, prints something", bool(piece), bool(came.out))


def ask_single(given, workers, folder):
    """The program is one module over each host. Over ours it does the same, as a link without other modules."""
    # m2 finds a module by its name
    names = {f"{NAME.search(text)[1]}{file[-4:]}": text for file, text in texts_of(given).items()}
    program = next(name for name, text in names.items() if name.endswith(".mod") and "IMPLEMENTATION MODULE" not in text)
    written(f"{folder}/sources", names)
    for host in ("wasi", "plain"):
        os.mkdir(f"{folder}/{host}{workers}")
        words = ["--workers", str(workers), "--memory", *(given.signs["m"] or [PAGES]), "--host", host, "--single", f"{host}{workers}/link.wasm"]
        expect_answer(M2, ["build", *words, f"sources/{program}"], folder, 0, b"")
    expect_end(given, f"plain{workers}", folder)


def ask_program(given, folder):
    """The program has these modules, prints this and ends so, by each number of workers, and as one module."""
    written(folder, texts_of(given))
    for workers in WORKERS_OF_PROGRAMS:
        out, modules = built_by(workers, given, folder)
        compare_modules(given, modules)
        if given.signs["r"]:
            expect_to_go_on(given, out, folder)
        else:
            expect_end(given, out, folder)
            ask_single(given, workers, folder)
    for workers in OTHER_WORKERS if given.signs["a"] else ():
        expect(f"the modules by {workers} workers", modules, built_by(workers, given, folder)[1])


def program_rows(name):
    for given in given_in(name):
        yield Row(f"{name} {given.number}, {given.signs['n'][0]}", lambda folder, it=given: ask_program(it, folder))
