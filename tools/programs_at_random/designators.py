"""Literals, and designators of variables and their components."""
from .kinds import BASE, COLOURS, PARTS, WHOLE
from .scope import Scope

LITERALS = {
    "BOOLEAN": ("TRUE", "FALSE"),
    "CHAR": ('"a"', '"z"', '"M"', "'0'", "101C", '"?"'),
    "BITSET": ("{}", "{0}", "{1, 4..6}", "BITSET{31, 2}", "{0..31}", "{3..5, 8}"),
    "Colour": COLOURS,
    "Letter": ('"a"', '"k"', '"z"'),
    "Warm": COLOURS[:3],
}
LARGE_CARDINALS = (4294967295, 65536, "0FFH", "17B", "MAX(Wide)", "MIN(Wide)", "ORD(MAX(Colour))")


class Designators(Scope):
    """What names a value. A subscript is an expression, and `Expressions` makes it."""

    def value(self, kind, depth=3):
        """An expression that can be assigned to the type."""
        raise NotImplementedError

    def changing_operand(self, kind, depth, otherwise):
        """An operand that is no constant, or this number."""
        raise NotImplementedError

    def integer_literal(self):
        """Small most often."""
        usual = self.chance(0.9)
        return str(self.pick((0, 1, 2, 3, 7, 10, 25, 100) if usual else (2147483647, self.random.randint(0, 70000))))

    def cardinal_literal(self):
        """Small most often."""
        return str(self.pick((0, 1, 2, 5, 8, 16, 255, 1000) if self.chance(0.9) else LARGE_CARDINALS))

    def literal(self, kind):
        """A constant of the type, without an operation."""
        if kind == "INTEGER":
            return self.integer_literal()
        if kind == "CARDINAL":
            return self.cardinal_literal()
        if kind == "Small":
            return str(self.random.randint(0, 20))
        if kind == "Wide":
            return str(self.random.randint(3, 400))
        return self.pick(LITERALS[kind])

    def fill(self, pattern):
        """A pattern with values in the places of its braces."""
        out, at = "", 0
        while (begin := pattern.find("{", at)) >= 0:
            end = pattern.index("}", begin)
            kind, *bounds = pattern[begin + 1 : end].split(":")
            out += pattern[at:begin] + self.index(kind, *map(int, bounds))
            at = end + 1
        return out + pattern[at:]

    def index(self, kind, low=None, high=None):
        """A subscript, which is rarely out of these bounds, or of all values of its type."""
        if low is None:
            return self.value(kind, 1)
        known = [it.name for it in self.variables if it.type == "CARDINAL" and it.name in self.busy]
        if self.chance(0.55):
            return str(self.random.randint(max(low, 0), high))
        if low < 0:
            return self.index_of_base("INTEGER", high, 0.9)
        if known and self.chance(0.3):
            return f"{self.pick(known)} MOD {high + 1}"
        return self.index_of_base("CARDINAL", high, 0.93)

    def index_of_base(self, base, high, part):
        """A subscript that is at most this in a calm program, and in this part of all others."""
        if self.calm or self.chance(part):
            return f"({self.value(base, 1)}) MOD {high + 1}"
        return self.changing_operand(base, 1, high)

    def places(self, kind, assignable=False):
        """Designators of this very type, not yet filled."""
        found = [(it.name, "") for it in self.variables if it.type == kind and (it.assignable or not assignable)]
        for it in self.variables:
            if it.assignable or not assignable:
                found += [(it.name, part) for part, of in PARTS.get(it.type, ()) if of == kind]
                found += [(it.name, part) for part, of in WHOLE.get(kind, ()) if of == it.type]
        return found

    def place(self, kind, assignable=False):
        """A designator of this very type, or None."""
        found = self.places(kind, assignable)
        if not found:
            return None
        name, part = self.pick(found)
        return name + self.fill(part)

    def variable_of(self, base):
        """A designator of a type with this base, or None."""
        kinds = [base] + [kind for kind, of in BASE.items() if of == base]
        self.random.shuffle(kinds)
        return next((it for it in map(self.place, kinds) if it), None)
