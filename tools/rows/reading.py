"""Rows of programs that read: what is put in comes out again."""
import os
import random

from .asking import M2, M2C, PLAIN_RUN, TOP, Row, bytes_of, called, expect, expect_answer, modules_in, written

LIBRARY = f"{TOP}/lib"
# A program that prints each byte that it reads
COPY = """MODULE Copy; FROM Console IMPORT Put; IMPORT Input; VAR ch: CHAR;
BEGIN Input.Read(ch); WHILE Input.Done DO Put(ch); Input.Read(ch) END END Copy.
"""
IMPORTED = ["Input.def", "Input.mod", "InputBytes.def"]
PAGES = ["--memory", "64"]
# The input's module: the bytes of a part, the most bytes of its text, and what always fits
PART, MOST, ALWAYS_FITS = 4096, 1048576, 500000
FAILED = 3
SEED = 20261129
EDGES = [PART - 1, PART, PART + 1, 2 * PART, 3 * PART - 1]
# The lengths that are tried by the language's definition, with more turns than a loop makes then
MEANT, BOUND = [0, 1, 2, 256, 300], "10000"
# What stands in memory behind the input: the texts and variables of two modules
BEHIND = {
    "A.def": "DEFINITION MODULE A; VAR a: CHAR; END A.\n",
    "A.mod": "IMPLEMENTATION MODULE A; IMPORT Input; VAR t: ARRAY [0..5] OF CHAR; BEGIN t := 'text'; Input.Read(a) END A.\n",
    "M.mod": "MODULE M; IMPORT A; VAR x: ARRAY [0..9] OF CHAR; BEGIN x := 'behind' END M.\n",
}


def spelled(byte):
    """How a text spells a byte of the input (crates/input_module): by itself, or by a pair of characters."""
    return chr(byte) if 32 <= byte < 123 and byte != 34 else chr(123 + byte // 64) + chr(48 + byte % 64)


def input_text(data):
    """The text of the module InputBytes for an input of a few bytes."""
    return (f"IMPLEMENTATION MODULE InputBytes;\nPROCEDURE Size(): CARDINAL; BEGIN RETURN {len(data)} END Size;\n"
            "PROCEDURE Take(number: CARDINAL; VAR part: Part);\n"
            f'BEGIN CASE number OF 0: part := "{"".join(map(spelled, data))}" ELSE part := "" END END Take;\nEND InputBytes.\n')


def ask_copy(data, folder):
    """The program prints this input."""
    written(folder, {"Copy.mod": COPY, "in": data})
    expect_answer(M2, ["run", "--lib", LIBRARY, *PAGES, "--workers", "1", "--input", "in", "Copy.mod"], folder, 0, data)


def ask_meaning(data, folder):
    """By the language's definition the program prints this input too, with a module of the input that has the bytes of m2's."""
    written(folder, {"Copy.mod": COPY, "in": data, "InputBytes.mod": input_text(data), **{it: bytes_of(f"{LIBRARY}/{it}") for it in IMPORTED}})
    files = ["Copy.mod", *IMPORTED, "InputBytes.mod"]
    expect_answer(PLAIN_RUN, [*PAGES, "--bound", BOUND, *files], folder, 0, data)
    for out in ("m2c", "m2"):
        os.mkdir(f"{folder}/{out}")
    expect_answer(M2C, [*PAGES, "--out", "m2c", *files], folder, 0, b"")
    expect_answer(M2, ["build", "--lib", LIBRARY, *PAGES, "--input", "in", "--out", "m2", "Copy.mod"], folder, 0, b"")
    expect("the modules of m2 build --input", modules_in(f"{folder}/m2c"), modules_in(f"{folder}/m2"))


def ask_length(count, is_taken, folder):
    """An input of so many letters is taken, or is too long for a module."""
    written(folder, {"Copy.mod": COPY, "in": b"a" * count})
    os.mkdir(f"{folder}/out")
    came = called(M2, ["build", "--lib", LIBRARY, *PAGES, "--input", "in", "--out", "out", "Copy.mod"], folder)
    expect("status, and whether the greatest length is said", (0, False) if is_taken else (FAILED, True), (came.status, str(MOST).encode() in came.err))


def ask_moved(folder):
    """`m2 input` makes of a build with one input the build with another. Link is another then, and only the input's module is."""
    written(folder, {**BEHIND, "old": "old", "new": "another input"})
    for name in ("old", "new"):
        os.mkdir(f"{folder}/by {name}")
        expect_answer(M2, ["build", "--lib", LIBRARY, "--memory", "2", "--input", name, "--out", f"by {name}", "M.mod"], folder, 0, b"")
    before, wanted = modules_in(f"{folder}/by old"), modules_in(f"{folder}/by new")
    expect_answer(M2, ["input", "--lib", LIBRARY, "by old", "new"], folder, 0, b"")
    moved = modules_in(f"{folder}/by old")
    expect("the modules", sorted(wanted), sorted(moved))
    for name, module in wanted.items():
        expect(f"the bytes of {name}", module, moved[name])
    expect("the modules that changed", ["InputBytes.wasm", "link.wasm"], sorted(it for it in moved if moved[it] != before[it]))


def reading_rows():
    data = random.Random(SEED).randbytes(ALWAYS_FITS)
    yield Row("an input of each byte", lambda folder: ask_copy(bytes(range(256)), folder))
    for count in [*range(301), *EDGES, ALWAYS_FITS]:
        yield Row(f"an input of {count} bytes", lambda folder, count=count: ask_copy(data[:count], folder))
    for count in MEANT:
        yield Row(f"an input of {count} bytes, by the definition", lambda folder, count=count: ask_meaning(data[:count], folder))
    yield Row("an input of too many bytes", lambda folder: ask_length(MOST, False, folder))
    yield Row("a long input", lambda folder: ask_length(MOST - 2 * PART, True, folder))
    yield Row("another input in a program that is built", ask_moved)
