"""The commands of m2, and the words and options of each, as the sources of its command line say them.

Only the forms in which these sources are written are read: rows of words and options, entries of commands, and functions that add an
`Arg` or rows, or call such functions.
A word or an option that is found has to stand in the table's `values`, so that a new one is not forgotten.
"""
import glob
import json
import re

from .table import TOP, read

SOURCES = ("command_words", "build_words", "tool_words")
FUNCTION = re.compile(r"(?m)^(?:pub )?fn (\w+).*?\n}\n", re.S)
CONSTANT = re.compile(r'(?m)^(?:pub(?:\(crate\))? )?const (\w+): &str =\s+"(.*)";')
STEP = re.compile(r"\bArg::new\(\s*alloc,\s*(?P<word>[^)]+)\)|\.long\((?P<long>[^)]+)\)|\.help\(\s*(?P<help>\"(?:[^\"\\]|\\.)*\")"
                  r"|\.action\(ArgAction::(?P<action>\w+)\)|\bwith_rows\(alloc, .*?, &(?P<rows>\w+)\)|\b(?P<call>\w+)\(\s*alloc\b")
NAME = r"(?P<name>\w+|\"[^\"]+\")"
ROW = re.compile(rf"Row {{\s*name: {NAME},\s*sort: Sort::(?P<sort>\w+).*?,\s*help: (?P<help>\w+|\"(?:[^\"\\]|\\.)*\"),\s*}}|\b(?P<shared>[A-Z]\w*_ROW)\b", re.S)
ROWS = re.compile(r"(?m)^const (\w+_ROWS?): (?:\[Row; \d+\]|Row) = (.*?);$", re.S)
ENTRY = re.compile(rf"Entry {{\s*name: {NAME},\s*about: (?P<about>\"[^\"]*\"),\s*rows: &(?P<rows>\w+),\s*has_steps: (?P<steps>\w+),"
                   r"\s*group: Group::(?P<group>\w+),\s*}")
# the options that commands of a group have beside their own
GROUPS = {"Setting": ["with_building", "STYLE_ROWS"], "Building": ["with_building"], "Style": ["STYLE_ROWS"], "Memory": ["memory_option"], "None": []}
OPTIONS_OF_ALL = [("--help", "Prints the options")]
OPTIONS_OF_PROGRAM = [*OPTIONS_OF_ALL, ("--version", "Prints the version")]


class Word:
    """A word or an option of a command: its name, what help says of it, and whether it may come again."""

    def __init__(self, name):
        self.name = name
        self.is_option = False
        self.takes_value = True
        self.comes_again = False
        self.help = ""

    def key(self):
        return f"--{self.name}" if self.is_option else self.name


class Command:
    """A command with what help says of it, its words in order, and its options."""

    def __init__(self, name):
        self.name = name
        self.about = ""
        self.words = []

    def options(self):
        return [it for it in self.words if it.is_option]

    def positional(self):
        return [it for it in self.words if not it.is_option]


class Sources:
    """The functions, rows and entries of the sources, and their constants, by name. Each crate has constants of its own."""

    def __init__(self):
        self.functions = {}
        self.rows = {}
        self.entries = []
        for crate in SOURCES:
            texts = [read(path[len(TOP) + 1:]) for path in sorted(glob.glob(f"{TOP}/crates/{crate}/src/*.rt"))]
            own = {name: value for text in texts for name, value in CONSTANT.findall(text)}
            for text in texts:
                self.functions.update({found[1]: (found[0], own) for found in FUNCTION.finditer(text)})
                self.rows.update({name: (body, own) for name, body in ROWS.findall(text)})
                self.entries += [(found, own) for found in ENTRY.finditer(text)]

    def value(self, text, constants):
        text = text.strip()
        return json.loads(text) if text.startswith('"') else constants[text]

    def words_of(self, name):
        """The words and options of rows or of a function, in order."""
        return list(self.words_of_rows(name) if name in self.rows else self.words_of_function(name))

    def words_of_rows(self, name):
        body, constants = self.rows[name]
        for found in ROW.finditer(body):
            if found["shared"]:
                yield from self.words_of_rows(found["shared"])
                continue
            word = Word(self.value(found["name"], constants))
            word.is_option = "Word" not in found["sort"]
            word.takes_value = found["sort"] != "Flag"
            word.comes_again = found["sort"] in ("Words", "AnyWords", "Values")
            word.help = self.value(found["help"], constants)
            yield word

    def words_of_function(self, name):
        body, constants = self.functions[name]
        words = []
        for found in STEP.finditer(body):
            kind = found.lastgroup
            if kind == "rows":
                words += self.words_of_rows(found["rows"])
            elif kind == "call":
                words += self.words_of_function(found["call"]) if found["call"] in self.functions else []
            elif kind == "word":
                words.append(Word(self.value(found["word"], constants)))
            else:
                apply(kind, found[kind] if kind == "action" else self.value(found[kind], constants), words[-1])
        return words


def apply(kind, value, word):
    """One step of the making of a word or an option."""
    if kind == "long":
        word.is_option = True
        word.name = value
    elif kind == "help":
        word.help = value
    else:
        word.takes_value = value != "SetTrue"
        word.comes_again = value == "Append"


def commands():
    """The commands of m2, in the order in which its help lists them."""
    sources = Sources()
    found = []
    for entry, constants in sources.entries:
        command = Command(sources.value(entry["name"], constants))
        command.about = sources.value(entry["about"], constants)
        parts = [entry["rows"], *(["steps_option"] if entry["steps"] == "true" else []), *GROUPS[entry["group"]]]
        command.words = [word for part in parts for word in sources.words_of(part)]
        found.append(command)
    return found


def unknown_values(table, found):
    """Each word or option of which the table does not say what values it takes."""
    for command in found:
        for word in command.words:
            if word.takes_value and word.key() not in table.values:
                yield f"m2 {command.name}: {word.key()} has no row among the values of editors/words.json"


def value_of(table, command, word):
    """What values a word or an option of a command takes."""
    return table.values.get(f"{command.name} {word.key()}") or table.values[word.key()]


def topics():
    """The first words of topics of `m2 explain`, and the numbers of faults and statuses."""
    listed = re.search(r'TOPIC_LIST: &str = r#"(.*?)"#', read("crates/explain_rules/src/pages.rt"), re.S)[1]
    rows = [line.split() for line in listed.splitlines()]
    single = [row[0] for row in rows if row[0] not in ("fault", "status")]
    return single, [row[1] for row in rows if row[0] == "fault"], [row[1] for row in rows if row[0] == "status"]
