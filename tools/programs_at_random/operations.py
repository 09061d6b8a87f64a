"""Operations with a result of each type: operators and standard functions."""
from .expressions import Expressions


class Operations(Expressions):
    """For each base a method that makes an operation, or an operand if there is none to make."""

    def operation(self, base, operators, depth):
        """An operator between two operands."""
        left = self.operand(base, depth)
        return f"{left} {self.pick(operators)} {self.operand(base, depth)}"

    def division(self, base, depth):
        """DIV or MOD."""
        left = self.operand(base, depth)
        return f"{left} {self.pick(('DIV', 'MOD'))} {self.divisor(base, depth)}"

    def variable_call(self, depth):
        """A call of a variable of a procedure type."""
        functions = [it.name for it in self.variables if it.type == "Binary"]
        if not functions:
            return self.operand("INTEGER", depth)
        return f"{self.pick(functions)}({self.value('INTEGER', depth)}, {self.value('CARDINAL', depth)})"

    def integer_of(self, depth):
        """An operation of the type INTEGER."""
        how = self.random.randrange(11)
        if how < 4:
            return self.operation("INTEGER", "+-+-*", depth)
        if how < 6:
            return self.division("INTEGER", depth)
        if how == 6:
            return f"-{self.operand('INTEGER', depth)}"
        if how == 7:
            return f"ABS({self.value('INTEGER', depth)})"
        if how == 8:
            return f"VAL(INTEGER, {self.operand('CARDINAL', depth)} MOD 100)"
        if how == 9:
            return self.variable_call(depth)
        left = self.operand("INTEGER", depth)
        return f"{left} - {self.operand('INTEGER', depth)} + {self.literal('INTEGER')}"

    def cardinal_of(self, depth):
        """An operation of the type CARDINAL."""
        how = self.random.randrange(10)
        if how < 3:
            return self.operation("CARDINAL", "+*+" if self.calm else "+-*", depth)
        if how < 6:
            return self.division("CARDINAL", depth)
        if how == 6:
            return f"ORD({self.value(self.pick(('CHAR', 'Colour', 'BOOLEAN', 'Letter')), depth)})"
        if how == 7:
            opens = [it.name for it in self.variables if it.type.startswith("Open")]
            return f"HIGH({self.pick(opens)})" if opens else self.operand("CARDINAL", depth)
        if how == 8:
            return f"VAL(CARDINAL, ABS({self.operand('INTEGER', depth)} MOD 50))"
        return f"ABS({self.operand('CARDINAL', depth)})"

    def boolean_of(self, depth):
        """An operation of the type BOOLEAN."""
        how = self.random.randrange(9)
        if how < 4:
            kind = self.pick(("INTEGER", "CARDINAL", "CHAR", "Colour", "BOOLEAN"))
            return f"({self.operation(kind, ('=', '#', '<', '<=', '>', '>=', '<>'), depth)})"
        if how < 6:
            return f"({self.operation('BOOLEAN', ('AND', 'OR', '&'), depth)})"
        if how == 6:
            return f"({self.operand('CARDINAL', depth)} MOD 32 IN {self.operand('BITSET', depth)})"
        if how == 7:
            return f"({self.operation('BITSET', ('=', '#', '<=', '>='), depth)})"
        inverted = f"NOT {self.operand('BOOLEAN', depth)}"
        odd = f"ODD({self.value('CARDINAL', depth)})"
        return self.pick((inverted, odd, f"~ {self.operand('BOOLEAN', depth)}"))

    def char_of(self, depth):
        """A function with a result of the type CHAR."""
        of_number = f"CHR({self.operand('CARDINAL', depth)} MOD 128)"
        capital = f"CAP({self.value('CHAR', depth)})"
        of_value = f"VAL(CHAR, {self.operand('CARDINAL', depth)} MOD 200)"
        return self.pick((of_number, capital, of_value, "MAX(Letter)"))

    def bitset_of(self, depth):
        """An operation of the type BITSET."""
        return self.operation("BITSET", "+-*/", depth)

    def colour_of(self, depth):
        """A function with a result of the type Colour, which is rarely out of range."""
        number = self.operand("CARDINAL", depth)
        return f"VAL(Colour, {number} MOD {5 if self.calm or self.chance(0.95) else 6})"
