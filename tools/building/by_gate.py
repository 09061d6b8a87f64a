"""Proves programs by `rt ci CRATE..`, which keeps what passes, and takes the programs from there.

So the gate proves none of it again, and what the gate has proved is taken as it is.
"""
import glob
import json
import os
import re
import shutil
import subprocess
import sys
import time

from .crates import KIT, TOP, below
from .lanes import with_lanes

# where `rt ci` keeps what passed on this machine
STORE = f"{os.path.dirname(KIT)}/rattle-kept"
PASSED = re.compile(r"rt: (\w+) (proved$|is kept: )")
FAILED = re.compile(r"rt: .*(NOT PROVED|NOT REFUSED|NOT TRIED|BAD EDIT)")
SECTION = re.compile(r"== (\w+)")


def is_possible():
    """Whether `rt ci` keeps what passes here. It takes no names where it is the gate itself."""
    if os.environ.get("CI") == "true":
        return False
    if os.path.isdir(STORE):
        return os.stat(STORE).st_uid == os.geteuid()
    return os.access(os.path.dirname(STORE), os.W_OK)


class Report:
    """What `rt ci` says: a line for each crate that passed, and all that it says of one that did not."""

    def __init__(self, count):
        self.count, self.passed, self.section, self.began = count, 0, [], time.time()

    def passes(self, crate, how):
        self.passed += 1
        minutes = (time.time() - self.began) / 60
        word = "proved" if how == "proved" else "kept"
        print(f"{word} {crate}, crate {self.passed} of {self.count}, {minutes:.1f} minutes", flush=True)

    def fails(self, line):
        sys.stderr.write("".join(self.section) + line)

    def read(self, line):
        passed = PASSED.match(line)
        if SECTION.match(line):
            self.section = []
        if passed:
            self.passes(*passed.groups())
        elif FAILED.match(line):
            self.fails(line)
        self.section.append(line)


def prove(programs):
    """Proves these crates and those below, and says how far it is. Whether all passed."""
    order = {}
    for crate in programs:
        below(crate, order)
    print(f"{len(order)} crates are to be proved, and their edits to be refused, by rt ci", flush=True)
    report = Report(len(order))
    how = {"cwd": TOP, "env": with_lanes(os.environ), "stdout": subprocess.PIPE, "stderr": subprocess.STDOUT, "text": True, "errors": "replace"}
    with subprocess.Popen(["rt", "ci", *programs], **how) as ran:
        for line in ran.stdout:
            report.read(line)
    return ran.returncode == 0


def program_of(crate, began):
    """The file of the program that `rt ci` kept or took since then, or None if it is not known which."""
    found = [it for it in glob.glob(f"{STORE}/proof-{crate}-*") if os.stat(it).st_mtime >= began]
    if len(found) != 1:
        return None
    with open(f"{found[0]}/made.json", encoding="utf-8") as file:
        names = [path for path, _ in json.load(file)["files"]]
    return f"{found[0]}/{names.index(crate)}" if crate in names else None


def copy_programs(programs, began):
    """Copies these programs to their files, as `rt ci` kept or took them since then. Whether all are found."""
    for crate, file in programs.items():
        found = program_of(crate, began)
        if found is None:
            return False
        shutil.copyfile(found, f"{file}.new")
        os.chmod(f"{file}.new", 0o755)
        os.replace(f"{file}.new", file)
    return True


def build(programs):
    """Proves and builds these programs, with their files. Whether all are built; None if they passed and are not to be found."""
    began = int(time.time())
    if not prove(programs):
        print(f"build_program: not built: {' '.join(programs)}", file=sys.stderr)
        return False
    return copy_programs(programs, began) or None
