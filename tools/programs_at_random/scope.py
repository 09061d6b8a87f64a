"""What a maker of a program knows while it writes: the names that are visible, the lines so far, and chance."""
import random


class Scope:
    """The visible variables and procedures, the lines of the program, and the random numbers of its seed."""

    def __init__(self, seed):
        self.random = random.Random(seed)
        self.variables, self.procedures, self.lines, self.depth = [], [], [], 1
        # loops around this statement, the result of this procedure, names so far, control variables in use, nesting
        self.loops, self.result, self.names, self.busy, self.level = 0, None, 0, set(), 0
        # a calm program is less likely to end by a fault
        self.calm = self.random.random() < 0.7

    def pick(self, rows):
        """One of these."""
        return self.random.choice(list(rows))

    def chance(self, part):
        """True in this part of all cases."""
        return self.random.random() < part

    def fresh_name(self, letter):
        """A name that no other part of the program has."""
        self.names += 1
        return f"{letter}{self.names}"

    def put(self, text):
        """Writes a line."""
        self.lines.append("  " * self.depth + text)
