"""What a module was made from: a file beside it names the sources, the commit, the toolchain and the proof."""
import hashlib
import os
import subprocess

TOP = os.path.dirname(os.path.dirname(os.path.dirname(os.path.abspath(__file__))))
PARTS = ("src", "specs", "proofs")
PROVED, UNPROVED = "proved", "UNPROVED"


def sum_of(path):
    with open(path, "rb") as file:
        return hashlib.sha256(file.read()).hexdigest()


def source_files():
    """The sources of all crates, crates.txt, and the library, in order."""
    folders = [f"crates/{crate}/{part}" for crate in sorted(os.listdir(f"{TOP}/crates")) for part in PARTS]
    found = ["crates.txt"]
    for folder in [*folders, "lib"]:
        found += [os.path.relpath(f"{at}/{name}", TOP) for at, _, names in os.walk(f"{TOP}/{folder}") for name in names]
    return sorted(found)


def sources_sum():
    """The checksum of all sources, as they stand."""
    whole = hashlib.sha256()
    for name in source_files():
        whole.update(f"{sum_of(f'{TOP}/{name}')}  {name}\n".encode())
    return whole.hexdigest()


def said(*words):
    """What a command prints; `unknown` where it is not there or fails."""
    try:
        return subprocess.run(words, cwd=TOP, check=True, capture_output=True, text=True).stdout.strip()
    except (OSError, subprocess.CalledProcessError):
        return "unknown"


def commit():
    """The commit that the sources are of."""
    changed = said("git", "status", "--porcelain", "--", "crates", "crates.txt", "lib")
    return said("git", "rev-parse", "HEAD") + (" with changes" if changed else "")


def version():
    with open(f"{TOP}/VERSION", encoding="utf-8") as file:
        return file.read().strip()


def is_current(module, crate):
    """Whether a module was made from proved code of this program, of the sources and by the toolchain that stand here."""
    told = read(module)
    wanted = {"program": crate, "sources": sources_sum(), "toolchain": said("rt", "version")}
    return wrong(module) is None and all(told.get(name) == value for name, value in wanted.items())


def write(module, crate, proof):
    """Writes the file beside a module. `proof` is the name under which the proof of the program is kept, or None."""
    lines = {
        "program": crate,
        "version": version(),
        "made": PROVED if proof else UNPROVED,
        "commit": commit(),
        "sources": sources_sum(),
        "toolchain": said("rt", "version"),
        "proof": proof or "none",
        "sha256": sum_of(module),
    }
    with open(f"{module}.origin", "w", encoding="utf-8") as file:
        file.writelines(f"{name} {value}\n" for name, value in lines.items())


def read(module):
    """What the file beside a module says, by name; nothing where it is not there."""
    try:
        with open(f"{module}.origin", encoding="utf-8") as file:
            return dict(line.rstrip("\n").split(" ", 1) for line in file)
    except (OSError, ValueError):
        return {}


def wrong(module):
    """Why a module is none that was made from proved code, or None."""
    told = read(module)
    if not told or not os.path.isfile(module):
        return f"{os.path.relpath(module, TOP)} is not there with its file .origin: first call `make web`"
    if told.get("made") != PROVED:
        return f"{os.path.relpath(module, TOP)} was made with nothing proved"
    if told.get("sha256") != sum_of(module):
        return f"{os.path.relpath(module, TOP)} is not the module that its file .origin names"
    return None
