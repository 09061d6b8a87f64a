"""Modula-2 for Pygments, as m2 reads it. tools/write_editors writes this file from editors/words.json.

pygmentize -x -l modula2.py:Modula2Lexer Hello.mod
"""
from pygments.lexer import RegexLexer, words
from pygments.token import Comment, Error, Keyword, Name, Number, Operator, Punctuation, String, Whitespace


class Modula2Lexer(RegexLexer):
    """Modula-2 in the profile of m2."""

    name = "Modula-2 (m2)"
    aliases = ["modula2-m2"]
    filenames = ["*.mod", "*.def"]
    tokens = {
        "root": [
            (r"\s+", Whitespace),
            (r"\(\*", Comment.Multiline, "comment"),
            (words(("AND", "ARRAY", "BEGIN", "BY", "CASE", "CONST", "DEFINITION", "DIV", "DO", "ELSE", "ELSIF", "END", "EXIT", "EXPORT", "FOR", "FROM", "IF", "IMPLEMENTATION", "IMPORT", "IN", "LOOP", "MOD", "MODULE", "NOT", "OF", "OR", "POINTER", "PROCEDURE", "QUALIFIED", "RECORD", "REPEAT", "RETURN", "SET", "THEN", "TO", "TYPE", "UNTIL", "VAR", "WHILE", "WITH"), suffix=r"(?![A-Za-z0-9])"), Keyword),
            (words(("BITSET", "BOOLEAN", "CARDINAL", "CHAR", "INTEGER"), suffix=r"(?![A-Za-z0-9])"), Keyword.Type),
            (words(("FALSE", "TRUE"), suffix=r"(?![A-Za-z0-9])"), Keyword.Constant),
            (words(("ABS", "CAP", "CHR", "DEC", "EXCL", "HALT", "HIGH", "INC", "INCL", "MAX", "MIN", "ODD", "ORD", "VAL"), suffix=r"(?![A-Za-z0-9])"), Name.Builtin),
            (words(("Console", "Put"), suffix=r"(?![A-Za-z0-9])"), Name.Builtin),
            (r"[A-Za-z][A-Za-z0-9]*", Name),
            (r"(?:[0-9][0-9A-F]*H)(?![A-Za-z0-9])", Number.Hex),
            (r"(?:[0-7]+C)(?![A-Za-z0-9])", String.Char),
            (r"(?:[0-7]+B)(?![A-Za-z0-9])", Number.Oct),
            (r"(?:[0-9]+)(?![A-Za-z0-9])", Number.Integer),
            (r"[0-9][0-9A-Za-z]*", Error),
            (r"\"[ -!#-~]*\"", String),
            (r"\"[^\"\n]*\"?", Error),
            (r"'[ -&(-~]*'", String),
            (r"'[^'\n]*'?", Error),
            (r":=|<=|<>|>=|#|&|\*|\+|-|/|<|=|>|\~", Operator),
            (r"\.\.|\(|\)|,|\.|:|;|\[|\]|\{|\||\}", Punctuation),
        ],
        "comment": [
            (r"\(\*", Comment.Multiline, "#push"),
            (r"\*\)", Comment.Multiline, "#pop"),
            (r"[^(*]+|[(*]", Comment.Multiline),
        ],
    }
