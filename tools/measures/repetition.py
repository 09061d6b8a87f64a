"""Texts of a size, in which a construct repeats.

A row is: a name, what stands before, what repeats, what stands behind, and in nested ones what closes each. In what
repeats, @ stands for a new name, ^ for the one before it, and % for a new number.
"""
import itertools

FIRST = "abcdefghijklmnopqrstuvwxyz"
LETTERS = "abcdefghijklmnopqrstuvwxyzABCDEFGHIJKLMNOPQRSTUVWXYZ0123456789"
STAND_INS = set("@^%")


def every(count, other, piece):
    """The piece so many times, then the other one, and so on."""
    return lambda number: other if number % (count + 1) == 0 else piece


def name_of(number):
    """The name of a number: another for each, and no reserved word."""
    name, rest = FIRST[number % len(FIRST)], number // len(FIRST)
    while rest:
        name += LETTERS[(rest - 1) % len(LETTERS)]
        rest = (rest - 1) // len(LETTERS)
    return name


def fill(piece, number):
    """What repeats, the time of this number."""
    template = piece(number) if callable(piece) else piece
    return template.replace("@", name_of(number)).replace("^", name_of(number - 1)).replace("%", str(number))


def repetition(piece, room):
    """What repeats, as often as there is room."""
    if isinstance(piece, str) and not STAND_INS & set(piece):
        return piece * (room // len(piece))
    text = ""
    for number in itertools.count(1):
        more = fill(piece, number)
        if len(text) + len(more) > room:
            return text
        text += more


def text_of(size, head, piece, tail, closing=""):
    """A text of at most so many bytes, or one without what repeats."""
    room = size - len(head) - len(tail)
    if closing:
        count = room // (len(piece) + len(closing))
        return f"{head}{piece * count}{closing * count}{tail}"
    return f"{head}{repetition(piece, room)}{tail}"
