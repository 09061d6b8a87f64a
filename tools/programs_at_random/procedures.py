"""Declarations of variables and procedures."""
from .kinds import SCALARS, Procedure, Variable
from .statements import COUNTED, Statements

FORMALS = (*SCALARS, "Row", "Item", "Text", "Open INTEGER", "Open CHAR", "Items", "Open CHAR")
LOCALS = (*SCALARS, *SCALARS, "Row", "Item", "Text", "Table")
RESULTS = (None, None, "INTEGER", "CARDINAL", "BOOLEAN", "CHAR", "Colour", "BITSET")


def heading_text(name, formals, result):
    """How the heading of a procedure is written."""
    kind = lambda of: f"ARRAY OF {of.split()[1]}" if of.startswith("Open") else of
    sections = "; ".join(f"{'VAR ' if is_var else ''}{formal}: {kind(of)}" for formal, of, is_var in formals)
    return f"PROCEDURE {name}{f'({sections})' if formals or result else ''}{f': {result}' if result else ''};"


class Procedures(Statements):
    """Procedures with procedures in them, down to the third level."""

    def declare(self, names):
        """Declarations of variables: pairs of a name and a type."""
        self.put("VAR")
        for name, kind in names:
            self.put(f"  {name}: {kind};")

    def locals_of(self, count):
        """The variables of a procedure: these, a control variable, and two that count turns."""
        names = [(self.fresh_name("v"), self.pick(LOCALS)) for _ in range(count)]
        control = (self.fresh_name("k"), self.pick(COUNTED))
        return [*names, control, (self.fresh_name("w"), "CARDINAL"), (self.fresh_name("w"), "CARDINAL")]

    def formal(self, kind, is_var=False):
        """A formal: its new name, its type, and whether it is a VAR formal."""
        return self.fresh_name("a"), kind, is_var

    def heading(self):
        """The formals of a procedure, and its result. Some fit the procedure types Binary and Action."""
        how = self.random.randrange(6)
        if how == 0:
            return [self.formal("INTEGER"), self.formal("CARDINAL")], "INTEGER"
        if how == 1:
            return [self.formal("INTEGER", True), self.formal("Small")], None
        count = self.random.randint(0, 4)
        formals = [self.formal(self.pick(FORMALS), self.chance(0.35)) for _ in range(count)]
        return formals, self.pick(RESULTS)

    def procedure(self, nested=0):
        """A procedure, which is known from here on."""
        name, (formals, result) = self.fresh_name("P"), self.heading()
        outer = self.variables, self.procedures, self.busy, self.loops, self.result
        # a control variable of a procedure around stays as it is
        around = [it for it in self.variables if not it.name.startswith(("k", "w"))]
        own = [Variable(formal, kind) for formal, kind, _ in formals]
        names = self.locals_of(self.random.randint(1, 4))
        self.put(heading_text(name, formals, result))
        self.declare(names)
        self.variables = around + own + [Variable(it, kind) for it, kind in names]
        self.busy, self.loops, self.result = set(), 0, result
        self.level += 1
        self.procedures_within(nested)
        self.procedure_body()
        self.level -= 1
        self.put(f"END {name};")
        self.variables, self.procedures, self.busy, self.loops, self.result = outer
        self.procedures = [*self.procedures, Procedure(name, formals, result, self.level)]

    def procedures_within(self, nested):
        """The procedures in a procedure of this level."""
        for _ in range(self.pick((0, 0, 1, 2)) if nested < 2 else 0):
            self.depth += 1
            self.procedure(nested + 1)
            self.depth -= 1

    def procedure_body(self):
        """The statements of a procedure. Now and then a function has no RETURN at its end."""
        self.put("BEGIN")
        self.put("  Tick;")
        self.block(self.random.randint(2, 5), 2)
        if self.result:
            has_return = self.calm or self.chance(0.9)
            self.put(f"  RETURN {self.value(self.result, 2)}" if has_return else "  Tick")
        elif self.chance(0.2):
            self.put(f"  IF {self.value('BOOLEAN', 1)} THEN RETURN END")
