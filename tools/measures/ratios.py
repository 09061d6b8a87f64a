"""The command `ratios`: the time of programs that end, by that of other engines."""
import os
import subprocess

from .builds import is_built, write_files
from .processes import M2RUN, TOP, middle
from .programs import WORKS

# the most reductions that m2run takes
FOR_EVER = 10**12


def seconds_of(words):
    """The processor time of a program, or None if it fails."""
    ran = middle(words, subprocess.DEVNULL)
    return ran.seconds if ran.status == 0 else None


def ratio(one, other):
    """A ratio in words, or `none` if one of both is not there."""
    return f"{one / other:.2f}" if one and other else "none"


def ratios(room, times):
    """The processor time of programs that end, by that of other engines on the same modules."""
    before = os.environ.get("M2RUN_BEFORE")
    print(f"load {os.getloadavg()[0]:.1f}; seconds of m2run, of the one before by it, and it by node:")
    for name, work in WORKS.items():
        text = f"MODULE M; VAR turn: CARDINAL; {work} BEGIN FOR turn := 1 TO {times} DO Work END END M.\n"
        out = f"{room}/out"
        if is_built(name, write_files(room, {"M.mod": text}), out):
            steps = ["--steps", str(FOR_EVER)]
            now = seconds_of([M2RUN, out, *steps])
            old = seconds_of([before, out, *steps]) if before else None
            node = seconds_of(["node", f"{TOP}/hosts/node/run.mjs", out])
            print(f"{name}: {now} s, {ratio(old, now)}, {ratio(now, node)}", flush=True)
