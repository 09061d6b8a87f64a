"""What programs read that print programs: GNU source-highlight and Pygments."""
HEAD = "tools/write_editors writes this file from editors/words.json."
SIGNS_OF_REGEXES = set("+*.()[]{}|~^$?\\")
STANDARD_OF_LANG = {"types": "type", "constants": "predef_var", "procedures": "predef_func", "built_in": "predef_func"}
STANDARD_OF_PYGMENTS = {"types": "Keyword.Type", "constants": "Keyword.Constant", "procedures": "Name.Builtin", "built_in": "Name.Builtin"}
NUMBERS_OF_PYGMENTS = {"hexadecimal": "Number.Hex", "character": "String.Char", "octal": "Number.Oct", "decimal": "Number.Integer"}
PYGMENTS = '''"""Modula-2 for Pygments, as m2 reads it. {head}

pygmentize -x -l modula2.py:Modula2Lexer Hello.mod
"""
from pygments.lexer import RegexLexer, words
from pygments.token import Comment, Error, Keyword, Name, Number, Operator, Punctuation, String, Whitespace


class Modula2Lexer(RegexLexer):
    """Modula-2 in the profile of m2."""

    name = "Modula-2 (m2)"
    aliases = ["modula2-m2"]
    filenames = {patterns}
    tokens = {{
        "root": [
            (r"\\s+", Whitespace),
            (r"{opened}", Comment.Multiline, "comment"),
{rules}
        ],
        "comment": [
            (r"{opened}", Comment.Multiline, "#push"),
            (r"{closed}", Comment.Multiline, "#pop"),
            (r"[^(*]+|[(*]", Comment.Multiline),
        ],
    }}
'''


def escaped(sign):
    return "".join(f"\\{it}" if it in SIGNS_OF_REGEXES else it for it in sign)


def either(signs):
    return "|".join(escaped(it) for it in sorted(signs, key=lambda it: (-len(it), it)))


def lang(table):
    """The language for source-highlight."""
    opened, closed = table.forms["comment"]
    quote = {'"': '\\"', "'": "'"}
    # the inner quotes of its regular expressions are written by their codes
    return "\n".join([
        f"# Modula-2 for GNU source-highlight, as m2 reads it. {HEAD}",
        f'comment delim "{opened}" "{closed}" multiline nested',
        "",
        *(f'string delim "{quote[it]}" "{quote[it]}"' for it in table.forms["quotes"]),
        "",
        f'keyword = "{"|".join(table.reserved_words())}"',
        "",
        *(f'{STANDARD_OF_LANG[kind]} = "{"|".join(found)}"' for kind, found in table.standard.items()),
        "",
        rf"number = '\<({'|'.join(table.numbers().values())})\>'",
        "",
        f"symbol = '{either(table.signs())}'",
        "",
    ])


def pygments(table):
    forms = table.forms
    opened, closed = (escaped(it) for it in forms["comment"])
    brackets = [it for pair in table.brackets for it in pair]
    quoted = {'"': '\\"', "'": "'"}
    behind = r'suffix=r"(?![A-Za-z0-9])"'
    rows = [f'(words({tuple(table.reserved_words())}, {behind}), Keyword)'.replace("'", '"')]
    rows += [f"(words({tuple(found)}, {behind}), {STANDARD_OF_PYGMENTS[kind]})".replace("'", '"') for kind, found in table.standard.items()]
    rows += [f'(r"{forms["name"]}", Name)']
    rows += [f'(r"(?:{form})(?![A-Za-z0-9])", {NUMBERS_OF_PYGMENTS[kind]})' for kind, form in table.numbers().items()]
    rows += [f'(r"{forms["run"]}", Error)']
    for it in forms["quotes"]:
        mark = quoted[it]
        rows += [f'(r"{mark}{table.inside(it)}*{mark}", String)', f'(r"{mark}[^{mark}\\n]*{mark}?", Error)']
    rows += [f'(r"{either(table.operators)}", Operator)', f'(r"{either(table.delimiters + brackets)}", Punctuation)']
    patterns = "[" + ", ".join(f'"*.{it}"' for it in table.extensions) + "]"
    return PYGMENTS.format(head=HEAD, patterns=patterns, opened=opened, closed=closed, rules="\n".join(f"            {it}," for it in rows))


def files(table):
    return {"editors/source-highlight/modula2.lang": lang(table), "editors/pygments/modula2.py": pygments(table)}


def regions(_table):
    return {}
