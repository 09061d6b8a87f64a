"""Rows of modules that others made, over m2run: directories, single files, and beginnings of files."""
import os
import re

from .asking import M2RUN, ROWS, TOP, Row, bytes_of, called, expect, expect_answer, written

DIRECTORIES = f"{ROWS}/machine"
FILES = f"{ROWS}/faults"
FIRST = f"{TOP}/crates/test_programs/data/hello"
# the lengths of the beginnings of the first program's files that are modules: the header, and what ends with the types or the imports
MODULES = {"link.wasm": (8, 18), "M.wasm": (8, 44, 158)}
HEADER = 8
RUNNING = 4
RAN, FAILED = (0, 1, 4), 3
UNLINKED = (b"link: refusal 83\n", b"link: refusal 84\n")


def said_of(name):
    """What is expected of a directory: words, each with what it is of."""
    with open(f"{DIRECTORIES}/{name}/EXPECTED", encoding="utf-8") as file:
        return dict(line.rstrip("\n").partition(" ")[::2] for line in file)


def ask_directory(name, folder):
    """What comes of a directory's modules, with how many reductions exactly: one less leaves the run going on."""
    says, path = said_of(name), f"{DIRECTORIES}/{name}"
    status, made = int(says["status"]), int(says.get("reductions", 0))
    steps = ["--steps", says["steps"]] if "steps" in says else []
    out, err = bytes.fromhex(says["out"]), f"{says['err']}\n".encode() if says.get("err") else b""
    if "err" in says:
        expect_answer(M2RUN, [*steps, path], folder, status, out, err)
    else:
        came = called(M2RUN, [*steps, path], folder)
        expect("status and standard output", (status, out), (came.status, came.out))
    if made:
        expect("the status with just these reductions", status, called(M2RUN, ["--steps", str(made), path], folder).status)
    if made > 1:
        expect("the status with one less", RUNNING, called(M2RUN, ["--steps", str(made - 1), path], folder).status)


def refusal_of(module, folder):
    """The number of the refusal of a module behind the first program's link; ok if it is linked, or only then refused; or what else came."""
    written(folder, {"link.wasm": bytes_of(f"{FIRST}/link.wasm"), "M.wasm": module})
    came = called(M2RUN, ["--steps", "100000", "."], folder)
    refused = re.fullmatch(rb"M: refusal (\d+)\n", came.err)
    if came.status == FAILED and refused:
        return refused[1].decode()
    is_read = came.status in RAN or came.status == FAILED and came.err in UNLINKED
    return "ok" if is_read else f"status {came.status} with {came.err!r}"


def ask_file(name, expected, folder):
    expect("the refusal", expected, refusal_of(bytes_of(f"{FILES}/{name}"), folder))


def ask_beginning(name, length, folder):
    """A beginning of a file is malformed, but for those that are modules."""
    expect("the refusal", "ok" if length in MODULES[name] else "80", refusal_of(bytes_of(f"{FIRST}/{name}")[:length], folder))


def ask_cut(lengths, answer, folder):
    """The first program, of each of whose files so many bytes are left."""
    written(folder, {name: bytes_of(f"{FIRST}/{name}")[:length] for name, length in lengths.items()})
    expect_answer(M2RUN, ["."], folder, *answer)


# how many bytes are left of the first program's files, and what comes of them
CUT = {
    "the first program": ({"link.wasm": None, "M.wasm": None}, (0, b"A")),
    "the first program, the header of M": ({"link.wasm": None, "M.wasm": HEADER}, (1, b"", b"trap\n")),
    "the first program, the header of link": ({"link.wasm": HEADER, "M.wasm": None}, (3, b"", b"link: refusal 83\n")),
    "the first program, M without its last byte": ({"link.wasm": None, "M.wasm": -1}, (3, b"", b"M: refusal 80\n")),
    "the first program, link without its last byte": ({"link.wasm": -1, "M.wasm": None}, (3, b"", b"link: refusal 80\n")),
}


# what the first program has printed after so many reductions, and how it is then: link makes 3, its call included; the check of the stack
# 8, the call of fill 3; fill 2, then 16 for each of its 16 bytes, and 4 at its end. Behind the constant, the 278th prints the byte, and
# two ends follow.
AFTER = {"277": (RUNNING, b""), "278": (RUNNING, b"A"), "279": (RUNNING, b"A"), "280": (0, b"A")}


def ask_after(steps, answer, folder):
    """The first program, after so many reductions."""
    expect_answer(M2RUN, ["--steps", steps, FIRST], folder, *answer)


def machine_rows():
    for name in sorted(os.listdir(DIRECTORIES)):
        yield Row(f"machine/{name}", lambda folder, name=name: ask_directory(name, folder))
    for line in bytes_of(f"{FILES}/EXPECTED").decode().splitlines():
        name, expected, *_ = line.split()
        yield Row(f"faults/{name}", lambda folder, it=(name, expected): ask_file(*it, folder))
    for name, (lengths, answer) in CUT.items():
        yield Row(name, lambda folder, it=(lengths, answer): ask_cut(*it, folder))
    for steps, answer in AFTER.items():
        yield Row(f"the first program, {steps} reductions", lambda folder, it=(steps, answer): ask_after(*it, folder))
    for name in MODULES:
        for length in range(os.path.getsize(f"{FIRST}/{name}")):
            yield Row(f"{length} bytes of {name}", lambda folder, it=(name, length): ask_beginning(*it, folder))
