"""Rows of what m2c reads, writes and says: each read and each write failing in turn, and streams that take nothing."""
import os
import resource
import signal
import subprocess

from .asking import M2C, M2RUN, PATIENCE, Came, Row, bytes_of, called, expect, expect_answer, modules_in, written

# P imports A, and the implementations of A and B import each other. B starts first, then A, and P last.
FILES = {
    "P.mod": "MODULE P; FROM Console IMPORT Put; IMPORT A; BEGIN Put('P') END P.",
    "A.mod": "IMPLEMENTATION MODULE A; FROM Console IMPORT Put; IMPORT B; BEGIN Put('A') END A.",
    "B.mod": "IMPLEMENTATION MODULE B; IMPORT A; FROM Console IMPORT Put; BEGIN Put('B') END B.",
    "A.def": "DEFINITION MODULE A; END A.",
    "B.def": "DEFINITION MODULE B; END B.",
}
PRINTS = b"BAP"
# in the order in which they are saved
MODULES = ["B.wasm", "A.wasm", "P.wasm"]
LINK = "link.wasm"
OLD = b"old"
# how many modules make link longer than each of them, and a length between
MANY, ROOM = 60, 2800
BUILT, REFUSED, COMMAND_LINE, FAILED = range(4)
# what is refused of two files, in the order of their names
WRONG_FILES = {"n.mod": "", "m.mod": "MODULE M; BEGIN"}
REPORTED = b"m.mod:1:16: refusal 10\nn.mod:1:1: refusal 10\n"


def prepared(folder):
    """The files are there, and a folder with an old link."""
    written(folder, {**FILES, f"out/{LINK}": OLD})
    return ["--out", "out", *FILES]


def expect_failure(words, folder, said):
    """m2c fails, and says this."""
    came = called(M2C, words, folder)
    expect("status, what is printed, and whether the words are said", (FAILED, b"", True), (came.status, came.out, said in came.err))


def ask_saved(options, folder):
    """The modules are saved, and run."""
    expect_answer(M2C, [*options, *prepared(folder)], folder, BUILT, b"")
    expect("the files", sorted([*MODULES, LINK]), sorted(os.listdir(f"{folder}/out")))
    expect_answer(M2RUN, ["out"], folder, 0, PRINTS)


def ask_unwritten(number, folder):
    """The module of this number cannot be written: those before it are saved, none behind it, and link is gone."""
    words = prepared(folder)
    os.mkdir(f"{folder}/whole")
    expect_answer(M2C, ["--out", "whole", *FILES], folder, BUILT, b"")
    os.mkdir(f"{folder}/out/{MODULES[number]}")
    expect_failure(words, folder, b"cannot write")
    saved = {it: bytes_of(f"{folder}/out/{it}") for it in os.listdir(f"{folder}/out") if os.path.isfile(f"{folder}/out/{it}")}
    expect("what is saved", {it: modules_in(f"{folder}/whole")[it] for it in MODULES[:number]}, saved)


def ask_link_kept(folder):
    """An old link cannot be removed: nothing is written."""
    words = prepared(folder)
    os.remove(f"{folder}/out/{LINK}")
    written(folder, {f"out/{LINK}/file": OLD})
    expect_failure(words, folder, b"cannot write")
    expect("the files", [LINK], os.listdir(f"{folder}/out"))


def ask_unread(name, folder):
    """A file is not there: it is named, and the folder stays as it was."""
    words = prepared(folder)
    os.remove(f"{folder}/{name}")
    expect_failure(words, folder, f"cannot read {name}".encode())
    expect("the old link", {LINK: OLD}, modules_in(f"{folder}/out"))


def limited():
    """No file may have more bytes than these, and who tries it is told."""
    signal.signal(signal.SIGXFSZ, signal.SIG_IGN)
    resource.setrlimit(resource.RLIMIT_FSIZE, (ROOM, ROOM))


def ask_cut_link(folder):
    """There is no room for link, which is longer than each module: the modules are saved, and no link is there."""
    names = [f"M{number}" for number in range(MANY)]
    files = {f"{it}.def": f"DEFINITION MODULE {it}; END {it}." for it in names}
    files |= {f"{it}.mod": f"IMPLEMENTATION MODULE {it}; END {it}." for it in names}
    files["P.mod"] = f"MODULE P; IMPORT {', '.join(names)}; END P."
    written(folder, {**files, f"out/{LINK}": OLD, "whole/none": b""})
    expect_answer(M2C, ["--out", "whole", *files], folder, BUILT, b"")
    whole = modules_in(f"{folder}/whole")
    link = whole.pop(LINK)
    expect("link alone is too long", True, max(map(len, whole.values())) <= ROOM < len(link))
    ran = subprocess.run([M2C, "--out", "out", *files], cwd=folder, stdin=subprocess.DEVNULL, capture_output=True, timeout=PATIENCE, preexec_fn=limited)
    expect("status, and whether it is said", (FAILED, True), (ran.returncode, b"cannot write" in ran.stderr))
    expect("what is saved", whole, modules_in(f"{folder}/out"))


def over(words, folder, out, err):
    """What m2c answers over these streams."""
    ran = subprocess.run([M2C, *words], cwd=folder, stdin=subprocess.DEVNULL, stdout=out, stderr=err, timeout=PATIENCE)
    return Came(ran.returncode, ran.stdout, ran.stderr)


def ask_unprinted(folder):
    """Standard output takes no refusals."""
    written(folder, {**WRONG_FILES, f"out/{LINK}": OLD})
    with open("/dev/full", "wb") as full:
        came = over(["--out", "out", *WRONG_FILES], folder, full, subprocess.PIPE)
    expect("status, and whether it is said", (FAILED, True), (came.status, b"cannot write to standard output" in came.err))
    expect("the old link", {LINK: OLD}, modules_in(f"{folder}/out"))


def ask_unsaid(folder):
    """Standard error takes no words: no status changes by that."""
    words = prepared(folder)
    written(folder, WRONG_FILES)
    asked = [(words, BUILT), (["--out", "out", *WRONG_FILES], REFUSED), (["--workers", "0", *words], COMMAND_LINE), ([*words, "none.mod"], FAILED)]
    with open("/dev/full", "wb") as full:
        statuses = [over(it, folder, subprocess.PIPE, full).status for it, _ in asked]
    expect("the statuses", [it for _, it in asked], statuses)


def ask_refused(folder):
    """What is refused is printed, and the folder stays as it was."""
    written(folder, {**WRONG_FILES, f"out/{LINK}": OLD})
    expect_answer(M2C, ["--out", "out", *WRONG_FILES], folder, REFUSED, REPORTED)
    expect("the old link", {LINK: OLD}, modules_in(f"{folder}/out"))


def saving_rows():
    yield from (Row(f"modules are saved {' '.join(it)}", lambda folder, it=it: ask_saved(it, folder)) for it in ([], ["--workers", "1"], ["--workers", "64"], ["--memory", "1024"]))
    yield from (Row(f"{MODULES[it]} cannot be written", lambda folder, it=it: ask_unwritten(it, folder)) for it in range(len(MODULES)))
    yield Row("there is no room for link", ask_cut_link)
    yield Row("an old link cannot be removed", ask_link_kept)
    yield from (Row(f"{it} is not there", lambda folder, it=it: ask_unread(it, folder)) for it in FILES)
    yield Row("refusals cannot be printed", ask_unprinted)
    yield Row("words cannot be said", ask_unsaid)
    yield Row("refusals are printed", ask_refused)
