"""Tries an edit by a check of the function that it changes, alone, over the libraries that `rt ci` keeps of these sources.

A caller may refuse what the function alone does not, and definitions are of no function: then the whole crate is checked.
"""
import hashlib
import os
import re
import shutil
import subprocess
import tempfile

from building.crates import KIT, TABLE, TOP, below
from building.kept import Unkept, copy_entry, crates_and_kept, read_entry

REFUSED, PASSED, BAD = "refused", "not refused", "bad edit"


class Libraries:
    """The proved libraries below crates, laid into a folder."""

    def __init__(self, room):
        self.room = room
        self.every, self.kept = crates_and_kept()
        self.laid = set()

    def lay(self, crate):
        """Lays the libraries below the crate, lowest first. `Unkept` names those that are not proved here."""
        absent = []
        for name in (it for it in below(crate, {}) if it != crate and it not in self.laid):
            files = read_entry(self.kept.place(self.every[name], False, self.kept.key(self.every[name])))
            if files is None:
                absent.append(name)
                continue
            copy_entry(self.kept.place(self.every[name], False, self.kept.key(self.every[name])), files, self.room)
            self.kept.rlibs[name] = hashlib.sha256(repr(files).encode()).hexdigest()
            self.laid.add(name)
        if absent:
            raise Unkept(f"rt ci keeps no proof of {', '.join(absent)} here: `rt ci {crate}` proves what is missing")

    def key(self, crate):
        """The sum of the crate's files and of all below it."""
        return self.kept.key(self.every[crate])

    def words(self, crate, folder):
        """What the prover is given of the crate."""
        root = "src/main.rt" if os.path.exists(f"{folder}/src/main.rt") else "src/lib.rt"
        words = [f"{KIT}/bin/rattle", "check", "--crate-name", crate, root, "-L", f"dependency={KIT}/rlibs"]
        for it in ["std", *TABLE[crate]]:
            words += ["--extern", f"{it}={self.room}/rlib/{it}.rlib" if it in TABLE else f"{it}={KIT}/rlibs/{it}.rlib"]
        words += ["-L", f"dependency={self.room}/rlib", "--links", f"{crate}=", "--jobs", "1"]
        return [*words, "--antt-project", f"{KIT}/rattle/logic/antt-project.json", "--logic-built", f"{KIT}/logic_built"]


TYPE = r"(?:[\w:]+::)?(\w+)(?:<.*?>)?"
OWNER = re.compile(rf"^impl(?:<.*>)? (?:{TYPE} for )?{TYPE} (?:where .*)?{{$", re.M)
HEAD = re.compile(r"^( *)(?:pub(?:\(\w+\))? )?(?:const )?fn (\w+)", re.M)
# A clause stands in lines of its own, between a function's head and its brace.
CLAUSE = re.compile(r"^ *(?:requires|ensures|decreases|unfolding|using)\b", re.M)


class Place:
    """Where an edit changes a text: the function, by the end of its path, or "" outside of functions, and whether in its body."""

    def __init__(self, text, module):
        self.function, self.in_body = "", False
        head = next(reversed(list(HEAD.finditer(text))), None)
        behind = text[head.end():] if head else ""
        if head and not re.search(rf"^{head.group(1)}}}$", behind, re.M):
            self.function = "::".join(filter(None, (owner_of(text, head) or module, head.group(2))))
            self.in_body = bool(re.search(rf"^{head.group(1)}{{$", behind, re.M) or re.search("{$", behind, re.M) and not CLAUSE.search(behind))


def owner_of(text, head):
    """The type, with the trait behind it, in whose impl the head of a function stands."""
    owner = next(reversed(list(OWNER.finditer(text, 0, head.start()))), None)
    if not owner or not head.group(1) or re.search("^}$", text[owner.end():], re.M):
        return ""
    return owner.group(2) + (owner.group(1) or "")


def module_of(path):
    """The module of a file of src/, as functions in it are named."""
    name = os.path.splitext(os.path.basename(path))[0]
    return "" if name in ("lib", "main") else name


def changed(edit, folder):
    """Makes the edit in a copy of its crate: the places that it changes, or `None` if it does not fit."""
    path, old, places = "", None, []
    with open(edit, encoding="utf-8") as file:
        lines = file.read().split("\n")
    for line in lines:
        if line.startswith("file: "):
            path = line.removeprefix("file: ").strip()
        elif line.startswith("old: "):
            old = line.removeprefix("old: ")
        elif line.startswith("new:"):
            with open(f"{folder}/{path}", encoding="utf-8") as file:
                text = file.read()
            if not old or text.count(old) != 1:
                return None
            head, _, tail = text.partition(old)
            places.append(Place(head + old.split("\n")[0] if path.endswith(".rt") else "", module_of(path)))
            with open(f"{folder}/{path}", "w", encoding="utf-8") as file:
                file.write(head + line.removeprefix("new:").removeprefix(" ") + tail)
    return places


def functions_in(places):
    """The functions that an edit changes; none if it changes what stands outside of functions too."""
    functions = list(dict.fromkeys(it.function for it in places))
    return [] if "" in functions else functions


def refusal(said):
    """The line that refuses a contract, or None: an edit that does not compile counts for nothing."""
    lines = said.split("\n")
    if any(re.match(r"src/\S+: error\[", it) for it in lines):
        return None
    return next((it for it in lines if "it is not proved that" in it or re.search(r"proofs/\S+: error: `", it)), None)


def check(libraries, crate, folder, only, kept):
    """A check of the crate's copy: of these functions, or of all if none is named."""
    names = [word for it in only for word in ("--only", it)]
    os.makedirs(kept, exist_ok=True)
    words = [*libraries.words(crate, folder), *names, "--incremental", kept]
    return subprocess.run(words, cwd=folder, stdout=subprocess.PIPE, stderr=subprocess.STDOUT, text=True)


def verdict(libraries, crate, folder, only, kept):
    """What a check says of the crate's copy, and the line that says so."""
    ran = check(libraries, crate, folder, only, kept)
    line = refusal(ran.stdout) if ran.returncode == 1 else None
    if line:
        return REFUSED, line.strip()
    if ran.returncode == 0 and re.search(r"^checked ", ran.stdout, re.M):
        return PASSED, "the check passed"
    return BAD, ran.stdout.strip()[-300:]


def copy_of(libraries, crate, name):
    """A copy of the crate under this name."""
    folder = f"{libraries.room}/{crate}-{name}"
    shutil.rmtree(folder, ignore_errors=True)
    shutil.copytree(f"{TOP}/crates/{crate}", folder, ignore=shutil.ignore_patterns("out"))
    return folder


def try_edit(libraries, crate, edit):
    """Tries an edit: what became of it, and the line that says so."""
    folder, kept = copy_of(libraries, crate, os.path.basename(edit)), f"{libraries.room}/{crate}-kept"
    try:
        places = changed(edit, folder)
        if places is None:
            return BAD, "it does not fit its file"
        for only in functions_in(places):
            told = verdict(libraries, crate, folder, [only], kept)
            if told[0] == REFUSED:
                return told
        return verdict(libraries, crate, folder, [], kept)
    finally:
        shutil.rmtree(folder, ignore_errors=True)


# ---- several edits at once: the proof of a function looks at its own body and at the contracts of others


def refused_alone(said, function):
    """The line that refuses a function by what is said of itself, or None."""
    line = re.search(rf"^fn \S*\b{re.escape(function)}: (?:not proved|no proof).*", said, re.M)
    if not line or "did not prove" in line.group():
        return line and line.group()
    error = re.search(rf"^\S*proofs/\S*\b{re.escape(function.split('::')[-1])}/\S+: error: `.*", said, re.M)
    return error and error.group()


def batch_of(crate, edits, folder):
    """Makes edits of the crate's copy as long as each changes the bodies of functions of its own: each with its functions."""
    batch, taken = {}, set()
    for edit in edits:
        with tempfile.TemporaryDirectory() as room:
            shutil.copytree(f"{TOP}/crates/{crate}", f"{room}/it", ignore=shutil.ignore_patterns("out"))
            places = changed(edit, f"{room}/it") or []
        functions = functions_in(places)
        if functions and all(it.in_body for it in places) and taken.isdisjoint(functions) and changed(edit, folder):
            batch[edit] = functions
            taken.update(functions)
    return batch


def try_batch(libraries, crate, edits):
    """Tries as many of the edits as go into one check of the functions that they change: those that are refused, each with the line that
    says so. Nothing is said of the others."""
    folder, kept = copy_of(libraries, crate, "batch"), f"{libraries.room}/{crate}-kept"
    try:
        batch = batch_of(crate, edits, folder)
        said = check(libraries, crate, folder, [it for functions in batch.values() for it in functions], kept).stdout if len(batch) > 1 else ""
        lines = {edit: next(filter(None, (refused_alone(said, it) for it in functions)), None) for edit, functions in batch.items()}
        return {edit: line.strip() for edit, line in lines.items() if line and refusal(said)}
    finally:
        shutil.rmtree(folder, ignore_errors=True)
