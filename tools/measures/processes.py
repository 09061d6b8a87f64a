"""Runs programs, and measures their time and their memory."""
import collections
import os
import resource
import subprocess
import time

TOP = os.path.dirname(os.path.dirname(os.path.dirname(os.path.abspath(__file__))))
M2 = f"{TOP}/build/m2"
M2C = f"{TOP}/build/m2c"
M2RUN = f"{TOP}/build/m2run"
ROUNDS = 3
# what went wrong so far
FAILED = []
Ran = collections.namedtuple("Ran", "status seconds clock memory said")


def unlimit_stack():
    """Gives the process as much native stack as the system allows."""
    most = resource.getrlimit(resource.RLIMIT_STACK)[1]
    resource.setrlimit(resource.RLIMIT_STACK, (most, most))


def measure(words, out=subprocess.PIPE):
    """Runs a program: its status, the seconds of processor time and by the clock, the most bytes, and what it says."""
    began = time.perf_counter()
    how = {"stdin": subprocess.DEVNULL, "stdout": out, "stderr": subprocess.STDOUT, "preexec_fn": unlimit_stack}
    ran, said = subprocess.Popen(words, **how), b""
    if ran.stdout:
        with ran.stdout:
            said = ran.stdout.read()
    _, status, used = os.wait4(ran.pid, 0)
    clock = time.perf_counter() - began
    ran.returncode = os.waitstatus_to_exitcode(status)
    seconds, memory = used.ru_utime + used.ru_stime, used.ru_maxrss * 1024
    return Ran(ran.returncode, seconds, clock, memory, said.decode(errors="replace"))


def middle(words, out=subprocess.PIPE):
    """Of several runs the one in the middle by processor time."""
    return sorted((measure(words, out) for _ in range(ROUNDS)), key=lambda ran: ran.seconds)[ROUNDS // 2]
