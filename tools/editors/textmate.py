"""The grammar of TextMate, which VS Code reads as JSON and TextMate as a property list, and what VS Code reads of the language."""
import json
import plistlib
import re

ABOUT = "tools/write_editors writes this file from editors/words.json."
SCOPE = "source.modula2"
WORDS = {
    "modules": "keyword.control.import", "declarations": "storage.type", "types": "storage.modifier", "choices": "keyword.control.conditional",
    "loops": "keyword.control.loop", "statements": "keyword.control", "operators": "keyword.operator.word",
}
STANDARD = {"types": "support.type", "constants": "constant.language", "procedures": "support.function", "built_in": "support.function.console"}
NUMBERS = {"hexadecimal": "constant.numeric.hex", "character": "constant.character", "octal": "constant.numeric.octal", "decimal": "constant.numeric"}
STRINGS = {'"': "string.quoted.double", "'": "string.quoted.single"}


def scope(name):
    return f"{name}.modula2"


def whole(form):
    """A form that stands alone, and is no part of a name or a number."""
    return f"(?<![A-Za-z0-9])(?:{form})(?![A-Za-z0-9])"


def match(name, form):
    return {"name": scope(name), "match": form}


def signs(found):
    return "|".join(re.escape(it) for it in sorted(found, key=lambda it: (-len(it), it)))


def patterns(table):
    forms = table.forms
    return [
        {"include": "#comment"},
        *(match(STRINGS[quote], f"{quote}{table.inside(quote)}*{quote}") for quote in forms["quotes"]),
        *(match("invalid.illegal", f"{quote}[^{quote}]*(?:{quote}|$)") for quote in forms["quotes"]),
        *(match(WORDS[kind], whole("|".join(words))) for kind, words in table.reserved.items()),
        *(match(STANDARD[kind], whole("|".join(words))) for kind, words in table.standard.items()),
        *(match(NUMBERS[kind], whole(form)) for kind, form in table.numbers().items()),
        match("invalid.illegal", whole(forms["run"])),
        match("keyword.operator", signs(table.operators)),
        match("punctuation", signs(table.delimiters + [it for pair in table.brackets for it in pair])),
    ]


def grammar(table):
    opened, closed = (re.escape(it) for it in table.forms["comment"])
    comment = {"name": scope("comment.block"), "begin": opened, "end": closed, "patterns": [{"include": "#comment"}]}
    return {"name": "Modula-2", "comment": ABOUT, "scopeName": SCOPE, "fileTypes": table.extensions, "patterns": patterns(table), "repository": {"comment": comment}}


def configuration(table):
    """What VS Code knows of brackets, comments and indentation."""
    rules = table.indent
    pairs = table.brackets
    opens = "|".join(rules["begins"])
    quotes = [{"open": it, "close": it, "notIn": ["string", "comment"]} for it in table.forms["quotes"]]
    return {
        "comments": {"blockComment": table.forms["comment"]},
        "brackets": pairs,
        "autoClosingPairs": [*({"open": left, "close": right} for left, right in pairs), *quotes],
        "surroundingPairs": [*pairs, *([it, it] for it in table.forms["quotes"])],
        "wordPattern": f"{table.forms['name']}|{table.forms['run']}",
        "indentationRules": {
            "increaseIndentPattern": f"^((?!\\(\\*).)*\\b({opens})\\s*(\\(\\*.*\\*\\)\\s*)?$|^\\s*(CASE\\b.*\\bOF)\\s*$|\\bRECORD\\s*$",
            "decreaseIndentPattern": f"^\\s*({'|'.join(rules['closes'])})\\b",
        },
        "folding": {"offSide": False},
    }


def as_json(value):
    return json.dumps(value, indent=2, ensure_ascii=False) + "\n"


def files(table):
    found = grammar(table)
    return {
        "editors/vscode/syntaxes/modula2.tmLanguage.json": as_json(found),
        "editors/vscode/language-configuration.json": as_json(configuration(table)),
        "editors/textmate/Modula-2.tmLanguage": plistlib.dumps(found, sort_keys=False).decode(),
    }


def regions(_table):
    return {}
