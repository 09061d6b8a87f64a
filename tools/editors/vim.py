"""What Vim and Neovim read: the syntax file, and the words of indentation."""
HEAD = "tools/write_editors writes this file from editors/words.json."
GROUPS = {"modules": "Include", "declarations": "Structure", "types": "Structure", "choices": "Conditional", "loops": "Repeat", "statements": "Statement", "operators": "Operator"}
STANDARD = {"types": "Type", "constants": "Constant", "procedures": "Function", "built_in": "Function"}
NUMBERS = {"decimal": "Number", "octal": "Number", "hexadecimal": "Number", "character": "Character"}


def group(name):
    return "modula2" + "".join(it.capitalize() for it in name.split("_"))


def pattern(form):
    """A form of the table as a pattern of Vim."""
    return form.replace("+", r"\+")


def sign_class(signs):
    """The signs of one character as a class; those of more than one, longest first, before it."""
    singles = [it for it in signs if len(it) == 1]
    order = [it for it in singles if it == "]"] + [it for it in singles if it not in "]-"] + [it for it in singles if it == "-"]
    longer = [it.replace("*", r"\*").replace(".", r"\.") for it in signs if len(it) > 1]
    return r"\|".join([*longer, f"[{''.join(order)}]"])


def keywords(name, words):
    return f"syntax keyword {group(name)} {' '.join(words)}"


def string_rows(table, quote):
    """The strings of a quote: what is closed on its line is one, and else it is wrong."""
    return [rf'syntax match modula2BadToken +{quote}[^{quote}]*\%({quote}\|$\)+', f"syntax match modula2String +{quote}{table.inside(quote)}*{quote}+"]


def syntax(table):
    forms = table.forms
    opened, closed = (it.replace("*", r"\*") for it in forms["comment"])
    brackets = [it for pair in table.brackets for it in pair]
    links = {group(f"word_{kind}"): to for kind, to in GROUPS.items()}
    links.update({group(f"standard_{kind}"): to for kind, to in STANDARD.items()})
    links.update({group(kind): to for kind, to in NUMBERS.items()})
    links.update({"modula2String": "String", "modula2Operator": "Operator", "modula2Delimiter": "Delimiter", "modula2Comment": "Comment", "modula2BadToken": "Error"})
    return "\n".join([
        f'" Syntax of Modula-2, as m2 reads it. {HEAD}',
        'if exists("b:current_syntax")',
        "  finish",
        "endif",
        "",
        "syntax case match",
        "syntax iskeyword A-Z,a-z,48-57",
        "syntax sync fromstart",
        *(keywords(f"word_{kind}", words) for kind, words in table.reserved.items()),
        *(keywords(f"standard_{kind}", words) for kind, words in table.standard.items()),
        rf'syntax match modula2BadToken "\<{forms["run"]}\>"',
        *(rf'syntax match {group(kind)} "\<{pattern(form)}\>"' for kind, form in table.numbers().items()),
        f'syntax match modula2Delimiter "{sign_class(table.delimiters + brackets)}"',
        f'syntax match modula2Operator "{sign_class(table.operators)}"',
        *(row for quote in forms["quotes"] for row in string_rows(table, quote)),
        f'syntax region modula2Comment start="{opened}" end="{closed}" contains=modula2Comment,@Spell',
        "",
        *(f"highlight default link {name} {to}" for name, to in links.items()),
        "",
        'let b:current_syntax = "modula2"',
        "",
    ])


def words(kind, found):
    return f"let s:{kind} = [{', '.join(f'{chr(34)}{it}{chr(34)}' for it in found)}]"


def indent(table):
    """The words of indentation, between the marks of the indent file."""
    rules = table.indent
    keys = [f"0={it}" for it in [*rules["closes"], *rules["sections"], "PROCEDURE"]]
    return [
        f"let &l:indentkeys = 'o,O,!^F,{','.join(keys)},0|'",
        words("opens", rules["opens"]),
        words("closes", [*rules["closes"], "|"]),
        words("sections", rules["sections"]),
        words("begins", [*rules["begins"], ";", "|"]),
    ]


def matches(table):
    """What % goes between."""
    opens = r"\|".join(it for it in table.indent["opens"] if it != "REPEAT")
    return [rf"let b:match_words = '\<\%({opens}\)\>:\<\%(ELSIF\|ELSE\)\>:\<END\>,\<REPEAT\>:\<UNTIL\>'"]


def files(table):
    return {"editors/vim/syntax/modula2.vim": syntax(table)}


def regions(table):
    return {"editors/vim/indent/modula2.vim": indent(table), "editors/vim/ftplugin/modula2.vim": matches(table)}
