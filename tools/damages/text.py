"""The tokens of a text, as people's tools see them: words, numbers, strings and signs, with their places as numbers of bytes."""
import re

WORDS = set(
    "AND ARRAY BEGIN BY CASE CONST DEFINITION DIV DO ELSE ELSIF END EXIT EXPORT FOR FROM IF IMPLEMENTATION IMPORT IN LOOP MOD MODULE NOT OF OR"
    " POINTER PROCEDURE QUALIFIED RECORD REPEAT RETURN SET THEN TO TYPE UNTIL VAR WHILE WITH".split()
)
TOKEN = re.compile(r"""[A-Za-z][A-Za-z0-9]*|[0-9][0-9A-Za-z]*|"[^"\n]*"|'[^'\n]*'|:=|<=|>=|<>|\.\.|[-+*/&.,;()\[\]{}=#<>:|~]""")
# spellings of one token
SAME = {"&": "AND", "~": "NOT", "<>": "#"}


def blank_comments(text):
    """The text with blanks in place of comments, which nest."""
    out, depth, at, quote = [], 0, 0, ""
    while at < len(text):
        pair = text[at:at + 2]
        if not quote and pair == "(*":
            depth, at = depth + 1, at + 2
            out.append("  ")
        elif depth and pair == "*)":
            depth, at = depth - 1, at + 2
            out.append("  ")
        else:
            char = text[at]
            if not depth and char in "\"'" and quote in ("", char):
                quote = "" if quote else char
            quote = "" if char == "\n" else quote
            out.append(char if not depth or char == "\n" else " ")
            at += 1
    return "".join(out)


def tokens_of(text):
    """(begin, end, spelling) of each token."""
    return [(it.start(), it.end(), it[0]) for it in TOKEN.finditer(blank_comments(text))]


def is_name(word):
    return word[0].isalpha() and word not in WORDS


def kind(word):
    """What a token counts as where one is held against another: names, numbers and strings are alike."""
    if is_name(word):
        return "name"
    if word[0].isdigit():
        return "number"
    if word[0] in "\"'":
        return "string"
    return SAME.get(word, word)


def are_alike(one, other):
    """Whether two texts have the same tokens up to names, numbers and strings."""
    return [kind(it[2]) for it in tokens_of(one)] == [kind(it[2]) for it in tokens_of(other)]
