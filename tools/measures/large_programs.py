"""The commands `corpus`, `chain` and `imports`: programs of many files."""
from .builds import make_corpus, report_builds, write_files

# which definitions that of a number imports, given all names and the most imports
SHAPES = {
    "without a cycle": lambda names, number, most: names[max(0, number - most) : number],
    "each on a cycle": lambda names, number, most: (names[number + 1 :] + names[:number])[:most],
    "each leads to a cycle": lambda names, number, most: (names[number + 1 :] or names[number:])[:most],
}


def corpus(room, modules, pairs):
    """Builds a program of so many modules."""
    print(f"{modules} modules of tools/make_corpus, with {pairs} pairs of procedures each:")
    report_builds(make_corpus(f"{room}/corpus", modules, pairs), room, (1, 2, 4))


def link_of(number):
    """A definition that imports all before it, and has a record with a type of each."""
    imported = "".join(f"IMPORT M{other};\n" for other in range(number))
    fields = "".join(f"  f{other}: M{other}.e;\n" for other in range(number))
    types = f"TYPE t = RECORD\n{fields}END; e = (red, green, blue);\n"
    return f"DEFINITION MODULE M{number};\n{imported}{types}END M{number}.\n"


def links_of(count):
    """The texts of a chain of so many definitions, and of a program that imports the last."""
    texts = {"P.mod": f"MODULE P; IMPORT M{count - 1}; END P.\n"}
    for number in range(count):
        texts[f"M{number}.def"] = link_of(number)
        texts[f"M{number}.mod"] = f"IMPLEMENTATION MODULE M{number}; END M{number}.\n"
    return texts


def chain(room, count):
    """Builds a chain of so many definitions."""
    print(f"a chain of {count} definitions:")
    report_builds(write_files(f"{room}/chain", links_of(count)), room, (1, 8))


def neighbours(names, number, most):
    """The names before this one, and those behind it where there is room."""
    before = names[max(0, number - most) : number]
    return before + names[number + 1 : number + 1 + most - len(before)]


def import_of(names):
    """The import of these modules, or nothing."""
    return f"IMPORT {', '.join(names)};\n" if names else ""


def importers(names, chosen, most):
    """Modules of these names, and a program, in which hardly anything stands but imports."""
    texts = {"P.mod": f"MODULE P;\n{import_of(names[-most:])}END P.\n"}
    for number, name in enumerate(names):
        of_definition = import_of(chosen(names, number, most))
        of_implementation = import_of(neighbours(names, number, most))
        texts[f"{name}.def"] = f"DEFINITION MODULE {name};\n{of_definition}END {name}.\n"
        texts[f"{name}.mod"] = f"IMPLEMENTATION MODULE {name};\n{of_implementation}END {name}.\n"
    return texts


def imports(room, count, most):
    """Builds so many files of up to so many imports, in each shape."""
    names = [f"M{number:06}" for number in range((count - 1) // 2)]
    for shape, chosen in SHAPES.items():
        print(f"imports, {shape}:")
        report_builds(write_files(f"{room}/imports", importers(names, chosen, most)), room, (1, 8))
