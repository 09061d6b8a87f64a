"""How many proofs go side by side."""
import os

# A check takes up to four gigabytes, and what it leaves on the disk is read from memory.
BYTES_OF_A_CHECK = 5_000_000_000


def free_bytes():
    """The memory that is free, as the system says it."""
    with open("/proc/meminfo", encoding="ascii") as file:
        return next(1024 * int(line.split()[1]) for line in file if line.startswith("MemAvailable:"))


def with_lanes(environment):
    """An environment for `rt ci`: one proof a processor, as many as there is memory for, unless it says a number itself. Left alone,
    `rt ci` counts on 80 kilobytes for each line below a crate, which for a program are thrice what it takes."""
    lanes = min(len(os.sched_getaffinity(0)), max(1, free_bytes() // BYTES_OF_A_CHECK))
    return {"RT_JOBS": str(lanes), **environment}
