"""The words of a definition. A word knows whether a blank stands before it; lines break at blanks alone."""
import re
from dataclasses import dataclass

WORD = re.compile(r'"(?:\\.|[^"\\])*"|[(){};,]|[^\s(){};,"]+')
OPENING = {"(": ")", "{": "}", "[": "]"}
CLOSING = set(OPENING.values())
SEPARATORS = {",", ";"}


@dataclass(frozen=True)
class Word:
    text: str
    is_glued: bool  # no blank stands before it


def words_of(text):
    return [Word(it[0], it.start() > 0 and not text[it.start() - 1].isspace()) for it in WORD.finditer(text)]


def text_of(words):
    """The words on one line."""
    return "".join(it.text if it.is_glued or not at else f" {it.text}" for at, it in enumerate(words))


def depth_of(words):
    """How many brackets the words open and leave open."""
    return sum((it.text in OPENING) - (it.text in CLOSING) for it in words)
