"""The table of words and forms, editors/words.json, and what else in the repository says the same."""
import json
import os
import re

TOP = os.path.dirname(os.path.dirname(os.path.dirname(os.path.abspath(__file__))))
TABLE = "editors/words.json"
LANGUAGE = "docs/LANGUAGE.md"
SCANNER = "crates/scan_tokens/src/symbols.rt"
PAGE = "hosts/browser/modula2.js"
WORD = re.compile(r"[A-Z]+")


def read(path):
    with open(f"{TOP}/{path}", encoding="utf-8") as file:
        return file.read()


class Table:
    """The words of the language by their kinds, its signs, and the forms of its tokens."""

    def __init__(self):
        found = json.loads(read(TABLE))
        self.extensions = found["extensions"]
        self.reserved = found["reserved"]
        self.standard = found["standard"]
        self.operators = found["signs"]["operators"]
        self.delimiters = found["signs"]["delimiters"]
        self.brackets = found["signs"]["brackets"]
        self.forms = found["forms"]
        self.indent = found["indent"]
        self.values = found["values"]

    def reserved_words(self):
        return sorted(it for words in self.reserved.values() for it in words)

    def standard_names(self):
        return sorted(it for words in self.standard.values() for it in words)

    def predeclared(self):
        return sorted(it for kind, words in self.standard.items() if kind != "built_in" for it in words)

    def signs(self):
        """All operators and delimiters, longer ones first."""
        every = self.operators + self.delimiters + [it for pair in self.brackets for it in pair]
        return sorted(every, key=lambda it: (-len(it), it))

    def inside(self, quote):
        """What stands between two quotes: bytes from 20H to 7EH other than the quote, as a class of characters."""
        before, behind = chr(ord(quote) - 1), chr(ord(quote) + 1)
        return f"[ -{before}{behind}-~]"

    def numbers(self):
        """The forms of numbers and characters by name; a run that is none of them is refused."""
        return {it: self.forms[it] for it in ("hexadecimal", "character", "octal", "decimal")}


def words_behind(text, front):
    """The words of capital letters in a sentence that begins so."""
    sentence = text[text.index(front) + len(front):]
    return sorted(WORD.findall(sentence[:sentence.index(".")]))


def quoted_set(text, name):
    """The words of a set of the page's mode."""
    found = re.search(rf"const {name} = new Set\((.*?)\.split", text, re.S)
    return sorted(re.findall(r"\b[A-Za-z]+\b", found[1]))


def said_elsewhere():
    """What other files of the repository say of reserved words, standard names and signs: the file, what it says, and what it is."""
    language, scanner, page = read(LANGUAGE), read(SCANNER), read(PAGE)
    signs = re.search(r"\*\*operators and delimiters\*\* are `([^`]*)`", language)[1].split()
    texts = re.findall(r'\(?b"([^"]+)", Symbol::', scanner)
    return [
        (LANGUAGE, "reserved words", words_behind(language, "The 40 reserved words are not names: ")),
        (LANGUAGE, "predeclared names", words_behind(language, "Predeclared, around every module and free to be declared anew, are ")),
        (LANGUAGE, "signs", sorted(signs)),
        (SCANNER, "reserved words", sorted(it for it in texts if it.isalpha())),
        (PAGE, "reserved words", quoted_set(page, "RESERVED")),
        (PAGE, "standard names", quoted_set(page, "STANDARD")),
    ]


def differences(table):
    """Each place where the table and another file do not say the same."""
    ours = {"reserved words": table.reserved_words(), "predeclared names": table.predeclared(), "standard names": table.standard_names(), "signs": sorted(table.signs())}
    for path, kind, theirs in said_elsewhere():
        for word in sorted(set(ours[kind]) ^ set(theirs)):
            place = path if word in theirs else TABLE
            yield f"{place}: {word} is among the {kind}, and in {TABLE if place == path else path} it is not"
