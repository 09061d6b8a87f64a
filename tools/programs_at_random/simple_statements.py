"""Statements without statements in them: assignments, calls, EXIT and RETURN, and what is printed."""
from .kinds import SCALARS, WHOLE
from .operations import Operations

# what prints a value of each type
SHOWN = {
    "INTEGER": "ShowInt({});",
    "CARDINAL": "ShowCard({}); Put(' ');",
    "CHAR": "Put({});",
    "BITSET": "ShowSet({});",
    "BOOLEAN": "IF {} THEN Put('T') ELSE Put('F') END;",
    "Colour": "ShowCard(ORD({}));",
}
STEPPED = ("INTEGER", "CARDINAL", "Small", "Wide", "Colour", "CHAR", "Letter")
STRINGS = ('""', '"a"', '"hello"', '"eight ch"', '"b2"')


class SimpleStatements(Operations):
    """Each method writes a statement of its kind, or none if there is nothing to make it of."""

    def assign(self):
        """An assignment, now and then between INTEGER and CARDINAL."""
        kind = self.pick(SCALARS)
        if to := self.place(kind, True):
            other = {"INTEGER": "CARDINAL", "CARDINAL": "INTEGER"}.get(kind, kind)
            self.put(f"{to} := {self.value(other if self.chance(0.02 if self.calm else 0.1) else kind)};")

    def leave(self):
        """EXIT or RETURN, now and then."""
        if self.loops and self.chance(0.7):
            self.put(f"IF {self.value('BOOLEAN', 2)} THEN EXIT END;")
        elif self.chance(0.3):
            condition = f"{self.operand('BOOLEAN', 2)} & {self.operand('BOOLEAN', 2)}"
            self.put(f"IF {condition} THEN RETURN {self.value(self.result, 2) if self.result else ''} END;")

    def show(self):
        """Prints a value."""
        kind = self.pick(("INTEGER", "CARDINAL", "CHAR", "BITSET", "BOOLEAN", "Colour", "Text"))
        if kind == "Text":
            if place := self.place("Text"):
                self.put(f"ShowText({place});")
            return
        self.put(SHOWN[kind].replace("{}", self.value(kind, 2)))

    def step(self):
        """INC or DEC."""
        risky = not self.calm or self.chance(0.1)
        kind = self.pick(STEPPED if risky else ("INTEGER", "CARDINAL"))
        if to := self.place(kind, True):
            by = "" if self.chance(0.4) else f", {self.size_of_step()}"
            self.put(f"{self.pick(('INC', 'DEC', 'INC')) if risky else 'INC'}({to}{by});")

    def size_of_step(self):
        """The second argument of INC or DEC."""
        return self.random.randint(0, 3) if self.calm or self.chance(0.6) else self.value("CARDINAL", 1)

    def change_set(self):
        """INCL or EXCL."""
        if to := self.place("BITSET", True):
            is_element = self.calm or self.chance(0.8)
            number = self.operand("CARDINAL", 1) if is_element else self.changing_operand("CARDINAL", 1, 31)
            element = f"{number} MOD 32" if is_element else number
            self.put(f"{self.pick(('INCL', 'EXCL'))}({to}, {element});")

    def copy_whole(self):
        """An assignment of an array or a record."""
        kind = self.pick(WHOLE)
        to, source = self.place(kind, True), self.place(kind)
        if kind == "Text" and to and self.chance(0.5):
            self.put(f"{to} := {self.pick(STRINGS)};")
        elif to and source:
            self.put(f"{to} := {source};")

    def procedure_call(self):
        """A call of a proper procedure."""
        found = [it for it in self.procedures if not it.result]
        if found and (call := self.call_of(self.pick(found))):
            self.put(f"{call};")

    def procedure_variable(self):
        """A call of a procedure variable, or assignments to some."""
        actions = [it.name for it in self.variables if it.type == "Action"]
        to = self.place("INTEGER", True)
        if actions and to and self.chance(0.4):
            guard = f"{self.pick(actions)} # none"
            return self.put(f"IF {guard} THEN {self.pick(actions)}({to}, {self.value('Small', 1)}) END;")
        for kind in ("Binary", "Action"):
            into = [it.name for it in self.variables if it.type == kind and it.assignable]
            named = [it.name for it in self.procedures if it.level == 0 and self.procedure_type(it) == kind]
            if into and self.chance(0.6):
                self.put(f"{self.pick(into)} := {self.pick(named + into)};")
        return None

    @staticmethod
    def procedure_type(procedure):
        """The procedure type that a procedure has, or an empty text."""
        kinds = [(kind, is_var) for _, kind, is_var in procedure.formals]
        if procedure.result == "INTEGER" and kinds == [("INTEGER", False), ("CARDINAL", False)]:
            return "Binary"
        return "Action" if not procedure.result and kinds == [("INTEGER", True), ("Small", False)] else ""
