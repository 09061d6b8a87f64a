"""Proves and builds libraries and programs one by one, each after those that it stands on.

As many go side by side as there are processors and memory, those with the longest chain above them first. A library is left
as it is if neither its files nor those below it have changed since it was built. What is proved so, `rt ci` proves again.
"""
import hashlib
import os
import shutil
import subprocess
import sys
import tempfile
import threading
import time

from .crates import KIT, TABLE, TOP, below, folder_of

GIGABYTES_OF_A_CHECK = 4


def sum_of(crate, sums):
    """What the rlib of the crate is made of: its files, and the sums of those that it names."""
    whole = hashlib.sha256(" ".join(sums.get(name, name) for name in TABLE[crate]).encode())
    for part in ("src", "specs", "proofs"):
        for at, folders, files in sorted(os.walk(f"{folder_of(crate)}/{part}")):
            for name in sorted(files):
                with open(f"{at}/{name}", "rb") as file:
                    whole.update(f"{at[len(TOP):]}/{name}".encode() + hashlib.sha256(file.read()).digest())
    return whole.hexdigest()


def words(crate, root):
    """What the compiler is given of a crate: its libraries, and where theirs are."""
    said = ["--crate-name", crate, root, "-L", f"dependency={KIT}/rlibs", "--extern", f"std={KIT}/rlibs/std.rlib"]
    for name in TABLE[crate]:
        where = f"{folder_of(name)}/out/rlib" if name in TABLE else f"{KIT}/rlibs"
        said += ["--extern", f"{name}={where}/{name}.rlib"]
    for name in below(crate, {}):
        if name != crate:
            said += ["-L", f"dependency={folder_of(name)}/out/rlib"]
    return [*said, "--antt-project", f"{KIT}/rattle/logic/antt-project.json", "--links", f"{crate}="]


PROVES = ["--logic-built", f"{KIT}/logic_built", "--jobs", "1"]


class Failed(Exception):
    """A crate was not built; what was written of it."""


def call(crate, *command):
    """Calls a tool in the crate's folder."""
    ran = subprocess.run(command, cwd=folder_of(crate), stdout=subprocess.PIPE, stderr=subprocess.STDOUT)
    if ran.returncode:
        raise Failed(ran.stdout)


def is_built(made, stamp, whole):
    """Whether something of this sum was made."""
    if not (os.path.exists(made) and os.path.exists(stamp)):
        return False
    with open(stamp, encoding="utf-8") as file:
        return file.read() == whole


def build_library(crate):
    """Proves a library and builds its rlib."""
    out = f"{folder_of(crate)}/out/rlib"
    shutil.rmtree(out, ignore_errors=True)
    os.makedirs(out)
    call(crate, f"{KIT}/bin/rattle", "build", *words(crate, "src/lib.rt"), *PROVES, "-o", f"{out}/{crate}.rlib")


def build_program(crate, program):
    """Proves a program, compiles what was proved, and links it."""
    said, tools = words(crate, "src/main.rt"), ["--toolchain", f"{KIT}/toolchain"]
    with tempfile.TemporaryDirectory(prefix="build-program-") as room:
        call(crate, f"{KIT}/bin/rattle", "check", *said, *PROVES, "-o", f"{room}/checked")
        proved = ["--crate-checked", f"{room}/checked"]
        call(crate, f"{KIT}/bin/rattle", "build", *said, *proved, *tools, "--backend", "llvm", "-o", f"{room}/program.o")
        linked = ["-o", f"{room}/program", f"{room}/program.o", f"{KIT}/c/libos_c.a", f"{KIT}/c/liblibc_c.a"]
        call(crate, f"{KIT}/bin/rattle-link", "--target", "x86_64-unknown-linux-gnu", *tools, *linked)
        shutil.copy2(f"{room}/program", program)


class Work:
    """What is to be built, what is being built, and what failed."""

    def __init__(self, programs):
        self.programs = programs
        order = {}
        for crate in programs:
            below(crate, order)
        self.sums = {}
        for crate in order:
            self.sums[crate] = sum_of(crate, self.sums)
        self.done = {crate for crate in order if is_built(*self.made(crate), self.sums[crate])}
        self.left = [crate for crate in order if crate not in self.done]
        self.chains = {}
        for crate in reversed(order):
            above = [self.chains[it] for it in self.chains if crate in TABLE[it]]
            self.chains[crate] = 1 + max(above, default=0)
        self.count, self.began = len(self.left), time.time()
        self.running, self.failed = set(), []
        self.changed = threading.Condition()

    def made(self, crate):
        """The file that a crate becomes, and the file with the sum of what it was made of."""
        if crate in self.programs:
            return self.programs[crate], f"{self.programs[crate]}.sum"
        return f"{folder_of(crate)}/out/rlib/{crate}.rlib", f"{folder_of(crate)}/out/rlib.sum"

    def next(self):
        """A crate of which all that it stands on is built, or None if there is nothing more to do."""
        with self.changed:
            while self.left and not self.failed:
                ready = [it for it in self.left if all(name in self.done for name in TABLE[it] if name in TABLE)]
                if ready:
                    crate = max(ready, key=self.chains.get)
                    self.left.remove(crate)
                    self.running.add(crate)
                    return crate
                self.changed.wait()
            return None

    def ended(self, crate, wrong):
        with self.changed:
            self.running.discard(crate)
            minutes = (time.time() - self.began) / 60
            if wrong is None:
                self.done.add(crate)
                proved = self.count - len(self.left) - len(self.running)
                print(f"proved {crate}, crate {proved} of {self.count}, {minutes:.1f} minutes", flush=True)
            else:
                self.failed.append((crate, wrong))
            self.changed.notify_all()

    def build(self):
        """Builds crates, one after another, until there is nothing more to do."""
        while (crate := self.next()) is not None:
            wrong = None
            try:
                if crate in self.programs:
                    build_program(crate, self.programs[crate])
                else:
                    build_library(crate)
                with open(self.made(crate)[1], "w", encoding="utf-8") as file:
                    file.write(self.sums[crate])
            except Failed as error:
                wrong = error.args[0]
            except OSError as error:
                wrong = str(error).encode()
            self.ended(crate, wrong)


def side_by_side():
    """How many checks this machine can do at once."""
    memory = os.sysconf("SC_PAGE_SIZE") * os.sysconf("SC_PHYS_PAGES") >> 30
    return max(1, min(os.cpu_count() or 1, memory // GIGABYTES_OF_A_CHECK))


def build(programs):
    """Proves and builds these programs, with their files, and says what failed. Whether all are built."""
    work = Work(programs)
    if work.count:
        print(f"{work.count} crates are to be proved and built, {side_by_side()} side by side", flush=True)
    builders = [threading.Thread(target=work.build) for _ in range(side_by_side())]
    for builder in builders:
        builder.start()
    for builder in builders:
        builder.join()
    for crate, wrong in work.failed:
        sys.stderr.buffer.write(wrong)
        print(f"build_program: {crate} was not built", file=sys.stderr)
    return not work.failed
