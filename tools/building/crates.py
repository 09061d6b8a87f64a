"""The crates of crates.txt, and the folder of the toolchain."""
import os
import subprocess

TOP = os.path.dirname(os.path.dirname(os.path.dirname(os.path.abspath(__file__))))


def kit():
    """The folder of the toolchain: that above its first page which has the compiler."""
    folder = subprocess.run(["rt", "doc"], stdout=subprocess.PIPE, check=True).stdout.decode().strip()
    while folder != "/" and not os.path.exists(f"{folder}/bin/rattle"):
        folder = os.path.dirname(folder)
    return folder


KIT = kit()


def crates():
    """The crates of crates.txt, each with those that it names."""
    table = {}
    with open(f"{TOP}/crates.txt", encoding="utf-8") as file:
        for line in file:
            head, _, names = line.partition(":")
            if head.strip() and not head.startswith("#"):
                table[head.split()[0]] = names.split()
    return table


TABLE = crates()


def folder_of(crate):
    return f"{TOP}/crates/{crate}"


def below(crate, found):
    """Adds the crates below this one, each behind those that it stands on, and then itself."""
    for name in TABLE[crate]:
        if name in TABLE and name not in found:
            below(name, found)
    found[crate] = None
    return found
