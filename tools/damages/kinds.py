"""Ways to damage a text: each answers the damaged text, or None where it finds nothing to damage."""
import re

from .text import is_name, tokens_of


def cut(text, begin, end, new=""):
    """The text with something else in the place of a token. What stood on both sides of it stays apart."""
    is_joined = not new and text[begin - 1:begin].isalnum() and text[end:end + 1].isalnum()
    return text[:begin] + (" " if is_joined else new) + text[end:]


def one_of(rng, text, wanted):
    found = [it for it in tokens_of(text) if wanted(it[2])]
    return rng.choice(found) if found else None


def left_out(rng, text, wanted):
    found = one_of(rng, text, wanted)
    return found and cut(text, found[0], found[1])


def written_for(rng, text, slips):
    """A token for which another is written."""
    found = one_of(rng, text, lambda word: word in slips)
    return found and cut(text, found[0], found[1], rng.choice(slips[found[2]]))


def token_left_out(rng, text):
    return left_out(rng, text, lambda word: True)


def token_doubled(rng, text):
    begin, end, word = rng.choice(tokens_of(text))
    return cut(text, end, end, f" {word}")


def tokens_exchanged(rng, text):
    tokens = tokens_of(text)
    at = rng.randrange(len(tokens) - 1)
    (first, behind, one), (second, end, other) = tokens[at], tokens[at + 1]
    if one == other:
        return None
    return text[:first] + f" {other} " + text[behind:second] + f" {one} " + text[end:]


def misspelt(rng, word):
    at = rng.randrange(len(word))
    way = rng.randrange(4)
    if way == 0:
        return word[:at] + rng.choice("abcdefghijklmnopqrstuvwxyz") + word[at + 1:]
    if way == 1:
        return word[:at] + word[at + 1:]
    if way == 2:
        return word[:at] + word[at] + word[at:]
    return word[:at] + word[at:at + 2][::-1] + word[at + 2:]


def name_misspelt(rng, text):
    found = one_of(rng, text, lambda word: is_name(word) and len(word) > 2)
    return found and cut(text, found[0], found[1], misspelt(rng, found[2]))


def name_in_other_case(rng, text):
    found = one_of(rng, text, lambda word: is_name(word) and len(word) > 1)
    return found and cut(text, found[0], found[1], found[2].lower() if found[2] != found[2].lower() else found[2].capitalize())


def import_left_out(rng, text):
    found = list(re.finditer(r"(?m)^ *FROM (\w+) IMPORT ([\w, \n]+);\n?", text))
    if not found:
        return None
    it = rng.choice(found)
    names = re.split(r",\s*", it[2])
    if len(names) == 1:
        return cut(text, it.start(), it.end())
    names.remove(rng.choice(names))
    return cut(text, it.start(), it.end(), f"FROM {it[1]} IMPORT {', '.join(names)};\n")


def end_left_out(rng, text):
    return left_out(rng, text, lambda word: word == "END")


def semicolon_left_out(rng, text):
    return left_out(rng, text, lambda word: word == ";")


def bracket_left_out(rng, text):
    return left_out(rng, text, lambda word: word in "()[]")


def head_word_left_out(rng, text):
    return left_out(rng, text, lambda word: word in ("THEN", "DO", "OF", "TO"))


def begin_left_out(rng, text):
    return left_out(rng, text, lambda word: word in ("BEGIN", "VAR", "PROCEDURE", "CONST", "TYPE", "RETURN", "IF", "WHILE", "FOR"))


def equals_exchanged(rng, text):
    return written_for(rng, text, {":=": ["=", "=="], "=": [":=", "=="]})


def word_in_small_letters(rng, text):
    found = one_of(rng, text, lambda word: word.isupper() and len(word) > 1 and not is_name(word))
    return found and cut(text, found[0], found[1], found[2].lower())


SIGNS = {
    ";": [":", ","], ",": [";", "."], ".": [",", ";"], ":": [";", "="], "(": ["[", "{"], ")": ["]", "}"], "[": ["("], "]": [")"], "#": ["!=", "=!"],
    "..": [".", "..."], "DIV": ["/", "\\"], "MOD": ["%"], "AND": ["&&"], "OR": ["|"], "NOT": ["!"], "|": [";"], "<=": ["=<"], ">=": ["=>"],
}


def sign_of_another_language(rng, text):
    return written_for(rng, text, SIGNS)


OTHERS = {
    "INTEGER": ["int", "integer", "LONGINT"], "BOOLEAN": ["bool", "Boolean"], "CARDINAL": ["unsigned", "word"], "CHAR": ["char", "character"],
    "PROCEDURE": ["function", "FUNCTION", "procedure", "def"], "ELSIF": ["ELSE IF", "ELSEIF", "elif"], "MODULE": ["program", "PROGRAM"], "TRUE": ["true"],
    "FALSE": ["false"], "RECORD": ["struct"], "EXIT": ["break", "BREAK"], "THEN": ["DO", "{"], "DO": ["THEN", "{"], "CASE": ["switch"],
}


def word_of_another_language(rng, text):
    return written_for(rng, text, OTHERS)


def quote_left_out(rng, text):
    found = one_of(rng, text, lambda word: word[0] in "\"'" and len(word) > 2)
    return found and cut(text, found[1] - 1, found[1])


KINDS = {
    "a token left out": token_left_out,
    "a token doubled": token_doubled,
    "two tokens exchanged": tokens_exchanged,
    "a name misspelt": name_misspelt,
    "a name in other letters": name_in_other_case,
    "an import left out": import_left_out,
    "an END left out": end_left_out,
    "a `;` left out": semicolon_left_out,
    "a bracket left out": bracket_left_out,
    "THEN, DO, OF or TO left out": head_word_left_out,
    "BEGIN, VAR, IF or the like left out": begin_left_out,
    "`=` and `:=` exchanged": equals_exchanged,
    "a word in small letters": word_in_small_letters,
    "a sign of another language": sign_of_another_language,
    "a word of another language": word_of_another_language,
    "a quote left out": quote_left_out,
}
