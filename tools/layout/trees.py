"""Reads the words of a definition as a tree. The tree serves layout alone, so it need not be what antt reads.

Each part is a range of words; a reader takes words from the front and leaves the rest.
"""
from dataclasses import dataclass, field
from typing import Any

from .words import OPENING, SEPARATORS, text_of

# how tightly operators bind: the loosest have the least numbers
LEVELS = {
    "→": -1, "↔": 0, "⊎": 1, "×": 2, "≡": 4, "≢": 4, "⨾": 6, "▷": 10, ">>=": 10, "∣": 20, "||": 30, "∙": 31, "&&": 35,
    "==": 40, "·": 40, "▸": 40, "◂": 42, "≤": 50, "<": 50, "≤ℤ": 50, "<ℤ": 50, "<=": 50, "++": 65, "+": 65, "-": 65,
    "+ℤ": 65, "-ℤ": 65, "∷": 67, "*": 70, "*ℤ": 70, "/": 70, "%": 70, "^": 75, "∘": 90,
}
# behind a name it binds what an action gives, and before a proof it turns the equation
BACKWARDS = "←"
SIGNS = {":", "=", "↦", BACKWARDS}
ENDS = {"then", "else", "in", "as", "|", "]", ")", "}", ",", ";"} | SIGNS


@dataclass
class Part:
    """A range of words."""
    words: list = field(repr=False)

    @property
    def flat(self):
        return text_of(self.words)


@dataclass
class Leaf(Part):
    """A word, or words that stay on one line."""


@dataclass
class Glued(Part):
    """Parts without blanks between them, as a bracket and the name of a field."""
    parts: list


@dataclass
class Group(Part):
    """What stands in brackets, as parts with separators."""
    parts: list
    separators: list


@dataclass
class Apply(Part):
    """A function and its arguments."""
    parts: list


@dataclass
class Chain(Part):
    """Operands of operators of one level."""
    parts: list
    operators: list


@dataclass
class Lambda(Part):
    """The head `λ x y.`, and the body."""
    head: Leaf
    body: Any


@dataclass
class Let(Part):
    bound: Any
    body: Any


@dataclass
class If(Part):
    condition: Any
    chosen: Any
    otherwise: Any


@dataclass
class Cases(Part):
    """`elim x [`, and the cases."""
    head: Leaf
    cases: list


@dataclass
class Record(Part):
    """`record {` or `record x {`, and the fields."""
    head: Leaf
    fields: list


@dataclass
class Bound(Part):
    """A name and a sign, and what stands behind it: a type, a value or a case."""
    left: Any
    sign: str
    right: Any


class Unreadable(Exception):
    """The words are not of the forms that this module knows."""


class Reader:
    """Reads words from the front."""

    def __init__(self, words):
        self.words, self.at = words, 0

    def peek(self):
        return self.words[self.at].text if self.at < len(self.words) else None

    def take(self, text=None):
        if self.at == len(self.words) or (text is not None and self.peek() != text):
            raise Unreadable(f"{text} is missing in {text_of(self.words)}")
        self.at += 1
        return self.words[self.at - 1].text

    def since(self, start):
        return self.words[start:self.at]

    def bound(self):
        """An expression, or a name, a sign and an expression, or nothing."""
        start = self.at
        left = self.expression()
        if self.peek() not in SIGNS or left is None:
            return left
        sign = self.take()
        right = self.bound()
        if right is None:
            raise Unreadable(f"nothing stands behind {sign} in {text_of(self.words)}")
        return Bound(self.since(start), left, sign, right)

    def expression(self):
        """Operands and operators up to a word that ends them; None if there is no operand."""
        start, operands, operators, starts = self.at, [], [], []
        while True:
            starts.append(self.at)
            operand = self.operand()
            if operand is None:
                if operators:
                    raise Unreadable(f"no operand stands behind {operators[-1]} in {text_of(self.words)}")
                return None
            operands.append((operand, starts[-1], self.at))
            if self.peek() not in LEVELS:
                return self.chain(operands, operators)
            operators.append(self.take())

    def chain(self, operands, operators):
        """Chains of chains: the loosest operators stand at the top."""
        if not operators:
            return operands[0][0]
        loosest = min(map(LEVELS.get, operators))
        cuts = [it for it, operator in enumerate(operators) if LEVELS[operator] == loosest]
        edges = zip([0] + [it + 1 for it in cuts], [it + 1 for it in cuts] + [len(operands)])
        parts = [self.chain(operands[low:high], operators[low:high - 1]) for low, high in edges]
        return Chain(self.words[operands[0][1]:operands[-1][2]], parts, [operators[it] for it in cuts])

    def operand(self):
        """A function with arguments; None if there is none."""
        start, parts = self.at, []
        while self.goes_on() or (self.peek() == BACKWARDS and not parts):
            parts.append(self.argument())
        if len(parts) < 2:
            return parts[0] if parts else None
        return Apply(self.since(start), parts)

    def goes_on(self):
        return self.peek() is not None and self.peek() not in ENDS and self.peek() not in LEVELS

    def argument(self):
        forms = {"λ": self.function, "let": self.let, "if": self.condition, "elim": self.cases, "record": self.record}
        start, parts = self.at, [forms.get(self.peek(), self.simple)()]
        while self.at < len(self.words) and self.words[self.at].is_glued and self.peek() not in ENDS:
            parts.append(self.simple())
        return Glued(self.since(start), parts) if len(parts) > 1 else parts[0]

    def simple(self):
        start = self.at
        closing = OPENING.get(self.take())
        if closing is None:
            return Leaf(self.since(start))
        parts, separators = [], []
        while self.peek() != closing:
            part = self.bound()
            if part is None and self.peek() not in SEPARATORS:
                raise Unreadable(f"{self.peek()} stands in brackets in {text_of(self.words)}")
            parts.append(part)
            if self.peek() in SEPARATORS:
                separators.append(self.take())
        self.take(closing)
        if None in parts:
            return Leaf(self.since(start))
        return Group(self.since(start), parts, separators)

    def needed(self, part):
        if part is None:
            raise Unreadable(f"an expression is missing in {text_of(self.words)}")
        return part

    def function(self):
        start = self.at
        self.take("λ")
        while not (self.peek() or "").endswith("."):
            self.simple()
        self.take()
        head = Leaf(self.since(start))
        body = self.needed(self.expression())
        return Lambda(self.since(start), head, body)

    def let(self):
        start = self.at
        self.take("let")
        bound = self.needed(self.bound())
        self.take("in")
        body = self.needed(self.expression())
        return Let(self.since(start), bound, body)

    def condition(self):
        start = self.at
        self.take("if")
        condition = self.needed(self.expression())
        self.take("then")
        chosen = self.needed(self.expression())
        self.take("else")
        otherwise = self.needed(self.expression())
        return If(self.since(start), condition, chosen, otherwise)

    def cases(self):
        start = self.at
        self.take("elim")
        while self.peek() != "[":
            if self.peek() == "as":
                self.take()
            self.argument()
        self.take("[")
        head, cases = Leaf(self.since(start)), []
        while self.peek() != "]":
            if self.peek() == "|":
                self.take()
            cases.append(self.needed(self.bound()))
        self.take("]")
        return Cases(self.since(start), head, cases)

    def record(self):
        start = self.at
        self.take("record")
        while self.peek() != "{":
            self.argument()
        self.take("{")
        head, fields = Leaf(self.since(start)), []
        while self.peek() != "}":
            fields.append(self.needed(self.bound()))
            if self.peek() == ";":
                self.take()
        self.take("}")
        return Record(self.since(start), head, fields)


def tree_of(words):
    """The tree of a whole range of words."""
    reader = Reader(words)
    part = reader.needed(reader.bound())
    if reader.at < len(words):
        raise Unreadable(f"{reader.peek()} is left in {text_of(words)}")
    return part
