"""Calls of the built programs, and rows that are tried at once, each in a folder of its own."""
import collections
import concurrent.futures
import os
import subprocess
import tempfile

TOP = os.path.dirname(os.path.dirname(os.path.dirname(os.path.abspath(__file__))))
ROWS = f"{TOP}/tools/rows"
PATIENCE = int(os.environ.get("PATIENCE", "60"))
M2, M2C, M2RUN, PLAIN_RUN = PROGRAMS = [os.path.abspath(os.environ.get(it.upper(), f"{TOP}/build/{it}")) for it in ("m2", "m2c", "m2run", "plain_run")]
# how much is shown of what was expected, and of what came
MOST_SHOWN = 300

Row = collections.namedtuple("Row", "name ask")
Came = collections.namedtuple("Came", "status out err")


class Wrong(Exception):
    """What was asked in a row, what was expected, and what came."""


def expect(asked, wanted, came):
    """Bytes or values are as they are wanted. Of bytes it is shown where they begin to differ."""
    if came == wanted:
        return
    at = len(os.path.commonprefix([wanted, came])) if isinstance(wanted, bytes) and isinstance(came, bytes) else 0
    begin = max(0, at - MOST_SHOWN // 2)
    shown = [repr(it[begin:] if at else it)[:MOST_SHOWN] for it in (wanted, came)]
    raise Wrong(f"{asked}{f', from byte {begin}' if at else ''}: expected {shown[0]}, came {shown[1]}")


def called(program, words, folder):
    """What a program answers in a folder. No library is found but by words."""
    ran = subprocess.run([program, *words], cwd=folder, capture_output=True, stdin=subprocess.DEVNULL, timeout=PATIENCE, env={**os.environ, "M2_LIB": ""})
    return Came(ran.returncode, ran.stdout, ran.stderr)


def expect_answer(program, words, folder, status, out, err=b""):
    """A program has this status, and these bytes on both streams."""
    came = called(program, words, folder)
    asked = f"{os.path.basename(program)} {' '.join(words)}"[:MOST_SHOWN]
    if came.status != status:
        raise Wrong(f"{asked}: expected status {status}, came {came.status} with {came.out[-MOST_SHOWN:]!r} and {came.err[-MOST_SHOWN:]!r}")
    expect(f"{asked}, standard output", out, came.out)
    expect(f"{asked}, standard error", err, came.err)


def written(folder, files):
    """Writes files: texts of single bytes, or bytes. Answers the folder."""
    for name, content in files.items():
        os.makedirs(os.path.dirname(f"{folder}/{name}"), exist_ok=True)
        with open(f"{folder}/{name}", "wb") as file:
            file.write(content if isinstance(content, bytes) else content.encode("latin-1"))
    return folder


def bytes_of(path):
    with open(path, "rb") as file:
        return file.read()


def modules_in(folder):
    """The modules of a folder, by the names of their files."""
    return {name: bytes_of(f"{folder}/{name}") for name in sorted(os.listdir(folder)) if name.endswith(".wasm")}


def wrong_of(row):
    """What is wrong with a row, or nothing."""
    with tempfile.TemporaryDirectory(prefix="try-rows-") as folder:
        try:
            row.ask(folder)
        except (Wrong, subprocess.TimeoutExpired, OSError) as wrong:
            return str(wrong) or repr(wrong)
    return ""


def try_all(rows):
    """Tries rows, as many at once as there are processors. Each that goes wrong is reported. How many do."""
    with concurrent.futures.ThreadPoolExecutor(os.cpu_count() or 1) as pool:
        results = list(pool.map(wrong_of, rows))
    for row, wrong in zip(rows, results):
        if wrong:
            print(f"WRONG {row.name}: {wrong}", flush=True)
    return sum(map(bool, results))
