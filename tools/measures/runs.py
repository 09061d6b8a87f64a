"""The command `run`: programs without an end, for a number of reductions, and one reduction of a large program."""
import os
import subprocess

from .builds import is_built, make_corpus, size_of, write_files
from .processes import FAILED, M2RUN, middle
from .programs import PROGRAMS

# the status of a program that still runs after so many reductions
STILL_RUNS = 4
# the modules of the large program, and their pairs of procedures
LARGE = (16, 600)
MILLION = 1_000_000


def run_on(name, out, steps):
    """Runs a program that does not end for so many reductions."""
    ran = middle([M2RUN, out, "--steps", str(steps)], subprocess.DEVNULL)
    if ran.status != STILL_RUNS:
        print(f"{name}: it ends with status {ran.status}")
        FAILED.append(name)
    return ran


def run_program(room, name, steps):
    """Builds a program without an end, and reports how fast it runs."""
    declared, body = PROGRAMS[name]
    text = f"MODULE M; FROM Console IMPORT Put; {declared} BEGIN LOOP {body} END END M.\n"
    out = f"{room}/out"
    if is_built(name, write_files(room, {"M.mod": text}), out):
        ran = run_on(name, out, steps)
        speeds = f"{steps / ran.seconds / 1e6:.1f} and {steps / ran.clock / 1e6:.1f} million reductions a second"
        print(f"{name}: {speeds}, {ran.memory / 1e6:.1f} MB of memory", flush=True)


def run_large(room):
    """Makes one reduction of a large program: its modules are read, validated and linked."""
    name, out = "a large program", f"{room}/large"
    if is_built(name, make_corpus(f"{room}/corpus", *LARGE), out):
        ran = run_on(name, out, 1)
        size = size_of(f"{out}/{it}" for it in os.listdir(out))
        speeds = f"{size / ran.seconds / 1e6:.1f} and {size / ran.clock / 1e6:.1f} MB/s"
        each = f"{ran.memory / size:.1f} bytes of memory a byte"
        print(f"{name}: {size} bytes of modules are read, validated and linked, {speeds}, {each}", flush=True)


def run(room, millions):
    """Runs each program for so many million reductions, and a large one for one."""
    print("by processor time, and by the clock:")
    for name in PROGRAMS:
        # each byte that is printed is one call of the system
        run_program(room, name, millions * (MILLION // 10 if name == "output" else MILLION))
    run_large(room)
