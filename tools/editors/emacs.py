"""What the mode for Emacs reads: words by their faces, forms of numbers, and the words of indentation."""


def constant(name, words):
    return f"(defconst m2c--{name} '({' '.join(f'{chr(34)}{it}{chr(34)}' for it in words)}))"


def text(name, value):
    return f'(defconst m2c--{name} "{value}")'


def table_lines(table):
    """The lines between the marks of the mode."""
    rules, standard = table.indent, table.standard
    return [
        constant("reserved", table.reserved_words()),
        constant("types", standard["types"]),
        constant("constants", standard["constants"]),
        constant("procedures", standard["procedures"] + standard["built_in"]),
        text("number", r"\\|".join(table.numbers().values())),
        text("run", table.forms["run"]),
        constant("opens", rules["opens"]),
        constant("closes", [*rules["closes"], "|"]),
        constant("sections", rules["sections"]),
        constant("begins", [*rules["begins"], ";", "|"]),
    ]


def files(_table):
    return {}


def regions(table):
    return {"editors/emacs/m2c-mode.el": table_lines(table)}
