"""Expressions of each type. They break no rule, but for a constant that is out of range now and then."""
import re

from .calls import Calls
from .kinds import BASE

# what names of variables, fields and procedures look like: an expression without one is a constant
CHANGING = re.compile(r"\b(?:[agkvwP]\d+|key|mark|name)\b")


class Expressions(Calls):
    """Expressions. `Operations` has the operations: for each base a method `integer_of`, `cardinal_of`, and so on."""

    def value(self, kind, depth=3):
        """An expression that can be assigned to the type, or an operand of its base."""
        base = BASE.get(kind, kind)
        if depth <= 0 or self.chance(0.2):
            return (self.chance(0.6) and self.variable_of(base)) or self.literal(kind)
        if kind != base and self.chance(0.97 if self.calm else 0.6):
            return (self.chance(0.5) and self.place(kind)) or self.literal(kind)
        if self.chance(0.12) and (call := self.function_call(base)):
            return call
        made = (getattr(self, f"{base.lower()}_of")(depth - 1) for _ in range(6))
        return next((it for it in made if self.suits(it, kind)), None) or self.variable_of(base) or self.literal(kind)

    @staticmethod
    def suits(text, kind):
        """Whether this is no constant, or one that is in range in any case: others may be refused."""
        return kind in ("BOOLEAN", "CHAR", "BITSET") or CHANGING.search(text)

    def operand(self, base, depth):
        """An expression of the base, in brackets if it needs them."""
        text = self.value(base, depth)
        is_literal = text.isalnum() or text.startswith(("'", '"', "{"))
        is_whole = is_literal or base == "BOOLEAN" and text.startswith("(")
        return text if is_whole else f"({text})"

    def changing_operand(self, kind, depth, otherwise):
        """An operand that is no constant, or this number."""
        text = self.operand(kind, depth)
        return text if CHANGING.search(text) else self.variable_of(kind) or str(otherwise)

    def divisor(self, kind, depth):
        """A divisor, which is a positive number most often."""
        least = str(self.random.randint(1, 9))
        return least if self.calm or self.chance(0.7) else self.changing_operand(kind, depth, least)
