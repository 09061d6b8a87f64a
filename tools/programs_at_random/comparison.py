"""Makes programs, and compares what their definition and their modules do."""
import collections
import os
import re
import subprocess
import sys
import tempfile

from .program import Program

TOP = os.path.dirname(os.path.dirname(os.path.dirname(os.path.abspath(__file__))))
REFUSED = re.compile(rb":\d+:\d+: refusal \d+\n\Z")
DEEP = "too deep for plain_run"
DEEP_ANSWER = (3, b"", "plain_run: too deep\n")
PATIENCE = 60
COMMANDS = ("make", "compare", "code")


def write_program(seed, folder):
    """Writes the program of a seed, and gives the paths of its files."""
    paths = []
    for name, text in Program(seed).files().items():
        paths.append(f"{folder}/{name}")
        with open(paths[-1], "w", encoding="ascii") as file:
            file.write(text)
    return paths


def answer_of(words):
    """The status of a program and what it writes, or that it does not end."""
    streams = {"stdin": subprocess.DEVNULL, "stdout": subprocess.PIPE, "stderr": subprocess.PIPE}
    try:
        came = subprocess.run(words, timeout=PATIENCE, **streams)
        return came.returncode, came.stdout, came.stderr.decode(errors="replace")
    except subprocess.TimeoutExpired:
        return "no end", b"", ""


def answer_of_code(paths, folder):
    """What the modules do, or what m2c says of the files."""
    out = f"{folder}/out"
    os.mkdir(out)
    built = answer_of([f"{TOP}/build/m2c", "--out", out, *paths])
    return answer_of([f"{TOP}/build/m2run", out]) if built[0] == 0 else built


def end_of(code):
    """How a program ended, in words."""
    return "refused" if REFUSED.search(code[1]) else code[2].strip() or f"status {code[0]}"


def answers_of(seed, with_definition):
    """What the modules of a program do, and what it does by its definition if that is asked for."""
    with tempfile.TemporaryDirectory(prefix="random-") as folder:
        paths = write_program(seed, folder)
        code = answer_of_code(paths, folder)
        return code, answer_of([f"{TOP}/build/plain_run", *paths]) if with_definition else code


def compare(seeds, with_definition):
    """Compares the programs of these seeds, and answers how many of them differ."""
    ends, wrong = collections.Counter(), 0
    for seed in seeds:
        code, meaning = answers_of(seed, with_definition)
        is_deep = meaning == DEEP_ANSWER
        ends[DEEP if is_deep else end_of(code)] += 1
        if not is_deep and (code != meaning or code[0] not in (0, 1)):
            wrong += 1
            print(f"seed {seed}: the code {code}, the meaning {meaning}", flush=True)
    print(f"{sum(ends.values()) - wrong - ends[DEEP]} agree, {wrong} do not; ends: {dict(ends)}")
    return wrong


def main(words, usage):
    """The command: its words without its name. Answers the status."""
    if len(words) != 3 or words[0] not in COMMANDS or not words[1].isdigit():
        print(usage, file=sys.stderr)
        return 2
    if words[0] == "make":
        write_program(int(words[1]), words[2])
        return 0
    return 1 if compare(range(int(words[1]), int(words[2])), words[0] == "compare") else 0
