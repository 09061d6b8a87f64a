"""What the grammar for tree-sitter reads: the forms of its tokens, and its queries for highlighting."""
ABOUT = "tools/write_editors writes this file from editors/words.json."
WORDS = {"modules": "keyword.import", "declarations": "keyword", "types": "keyword.type", "choices": "keyword.conditional", "loops": "keyword.repeat", "statements": "keyword", "operators": "keyword.operator"}
STANDARD = {"types": "type.builtin", "constants": "constant.builtin", "procedures": "function.builtin", "built_in": "function.builtin"}
# reserved words with which no module can go on are no tokens of the grammar
UNUSED = {"EXPORT", "POINTER", "QUALIFIED", "SET"}


def quoted(words):
    return " ".join(f'"{it}"' for it in words)


def forms(table):
    """The forms of tokens, between the marks of the grammar."""
    numbers = table.numbers()
    return [
        f"const IDENTIFIER = /{table.forms['name']}/;",
        f"const NUMBERS = [{', '.join(f'/{form}/' for kind, form in numbers.items() if kind != 'character')}];",
        f"const CHARACTER = /{numbers['character']}/;",
        f"const STRINGS = [{', '.join(f'/{it}{table.inside(it)}*{it}/' for it in table.forms['quotes'])}];",
    ]


def queries(table):
    brackets = [it for pair in table.brackets for it in pair]
    used = {kind: [it for it in words if it not in UNUSED] for kind, words in table.reserved.items()}
    return "\n".join([
        f"; {ABOUT}",
        "(comment) @comment",
        "(string) @string",
        "(character) @character",
        "(number) @number",
        "(procedure_heading name: (identifier) @function)",
        "(procedure name: (identifier) @function)",
        "(type_declaration name: (identifier) @type)",
        *(f"((identifier) @{STANDARD[kind]} (#any-of? @{STANDARD[kind]} {quoted(words)}))" for kind, words in table.standard.items()),
        *(f"[{quoted(words)}] @{WORDS[kind]}" for kind, words in used.items()),
        f"[{quoted(table.operators)}] @operator",
        f"[{quoted(table.delimiters)}] @punctuation.delimiter",
        f"[{quoted(brackets)}] @punctuation.bracket",
        "",
    ])


def files(table):
    return {"editors/tree-sitter/queries/highlights.scm": queries(table)}


def regions(table):
    return {"editors/tree-sitter/grammar.js": forms(table)}
