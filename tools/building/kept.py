"""The libraries that `rt ci` keeps on this machine: what it proved, found by the names that `rt` itself gives to it."""
import hashlib
import importlib.machinery
import importlib.util
import json
import os
import shutil

from .crates import KIT, TOP, below


class Unkept(Exception):
    """Libraries that are not kept."""


def script_of_kit():
    """The toolchain's `rt` as a module. It alone knows how it names what it keeps."""
    loader = importlib.machinery.SourceFileLoader("rt", f"{KIT}/bin/rt")
    module = importlib.util.module_from_spec(importlib.util.spec_from_loader("rt", loader))
    loader.exec_module(module)
    return module


def read_entry(folder):
    """The files of an entry, each with its checksum, as they were made; none where the entry is not there."""
    try:
        with open(f"{folder}/made.json", encoding="utf-8") as file:
            return [(path, checksum) for path, checksum in json.load(file)["files"]]
    except OSError:
        return None


def sum_of(path):
    with open(path, "rb") as file:
        return hashlib.sha256(file.read()).hexdigest()


def copy_entry(folder, files, room):
    """Copies a library out of an entry, and holds each file to its checksum."""
    for number, (path, checksum) in enumerate(files):
        target = f"{room}/{path}"
        os.makedirs(os.path.dirname(target), exist_ok=True)
        shutil.copyfile(f"{folder}/{number}", target)
        if sum_of(target) != checksum:
            raise Unkept(f"{folder} is damaged")


def walk_once(walk):
    """What a walk from a crate finds, found once: `rt` walks each way to a crate again, of which there are millions."""

    def found(crate):
        if "found_below" not in vars(crate):
            crate.found_below = walk(crate)
        return list(crate.found_below)

    return found


def crates_and_kept():
    """The crates by name as `rt` sees them, and what it keeps."""
    rt = script_of_kit()
    try:
        rt.Crate.below = walk_once(rt.Crate.below)
        rt.Crate.allowed = rt.handles_of(TOP)
        every = {it.name: it for it in rt.crates_of(TOP)}
        return every, rt.Kept(every.values())
    except (AttributeError, TypeError) as error:
        raise Unkept(f"rt of this toolchain names what it keeps in a way that tools/building/kept.py does not know: {error}") from error


def lay_libraries(crate, room):
    """Puts the proved libraries below a program into a folder, as room/rlib/NAME.rlib, and answers what is known of the program's own
    proof. What is kept has the sum of all that was read for its name, so it is of these sources, or it is not found."""
    every, kept = crates_and_kept()
    absent = []
    for name in (it for it in below(crate, {}) if it != crate):
        folder = kept.place(every[name], False, kept.key(every[name]))
        files = read_entry(folder)
        if files is None:
            absent.append(name)
            continue
        copy_entry(folder, files, room)
        kept.rlibs[name] = hashlib.sha256(repr(files).encode()).hexdigest()
    if absent:
        raise Unkept(f"rt ci keeps no proof of {', '.join(absent)} here: `rt ci {crate}` proves what is missing")
    key = kept.key(every[crate])
    is_kept = os.path.isdir(kept.place(every[crate], False, key))
    return f"{crate}-{key}, {'passed by rt ci' if is_kept else 'checked by build_web alone'}"
