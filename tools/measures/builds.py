"""Builds of programs: their files, and what comes of them."""
import os
import subprocess
import sys

from .processes import FAILED, M2C, TOP, measure, middle


def build_words(files, out, workers=1, pages=16):
    """The words that build a program."""
    os.makedirs(out, exist_ok=True)
    return [M2C, "--workers", str(workers), "--memory", str(pages), "--out", out, *files]


def outcome(ran):
    """What comes of a build: `built`, the first refusal, or how it failed."""
    line = ran.said.partition("\n")[0]
    if ran.status == 0:
        return "built"
    if ran.status == 1 and ": refusal " in line:
        return line.rpartition(": ")[2]
    FAILED.append(line)
    return f"failed with status {ran.status} {line}".rstrip()


def is_built(name, files, out):
    """Whether a program is built. It reports one that is not."""
    ran = measure(build_words(files, out))
    if ran.status:
        print(f"{name}: {outcome(ran)}")
        FAILED.append(name)
    return not ran.status


def report_builds(files, room, numbers):
    """Reports what it takes to build these files with each of these numbers of workers."""
    size = size_of(files)
    print(f"{len(files)} files, {size} bytes")
    for workers in numbers:
        ran = middle(build_words(files, f"{room}/out", workers))
        times = f"{ran.seconds:.2f} s of processor time, {ran.clock:.2f} by the clock"
        speeds = f"{size / ran.seconds / 1e6:.1f} and {size / ran.clock / 1e6:.1f} MB/s"
        each = f"{ran.memory / size:.1f} bytes of memory a byte of text"
        print(f"  workers {workers}: {times}, {speeds}, {each}, {outcome(ran)}", flush=True)


def write_files(folder, texts):
    """Writes files, and answers their paths."""
    os.makedirs(folder, exist_ok=True)
    for name, text in texts.items():
        with open(f"{folder}/{name}", "w", encoding="latin-1", newline="") as file:
            file.write(text)
    return [f"{folder}/{name}" for name in texts]


def size_of(files):
    """The bytes of all these files."""
    return sum(map(os.path.getsize, files))


def make_corpus(folder, modules, pairs):
    """The files of a program that tools/make_corpus writes."""
    subprocess.run([sys.executable, f"{TOP}/tools/make_corpus", folder, str(modules), str(pairs)], check=True)
    with open(f"{folder}/files", encoding="utf-8") as file:
        return file.read().split("\n")
