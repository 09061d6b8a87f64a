"""Whole programs: a module Main, alone or with a module Lib from which it imports."""
from .helpers import COUNTERS, HELPER_NAMES, HELPERS
from .kinds import SCALARS, TYPE_NAMES, TYPES, Variable
from .procedures import Procedures, heading_text

STRUCTURED = ("Row", "Table", "Text", "Item", "Items", "Binary", "Action")
PUT_IMPORT = "FROM Console IMPORT Put;"
LIBRARY_HEAD = "MODULE Lib;"


def text_of(*lines):
    """The text of a file."""
    return "\n".join(lines) + "\n"


class Program(Procedures):
    """The program of a seed."""

    def module_variables(self):
        """The variables of a module: one of each type, and three more."""
        names = [(self.fresh_name("g"), kind) for kind in (*SCALARS, *STRUCTURED)]
        return names + [(self.fresh_name("g"), self.pick(SCALARS)) for _ in range(3)]

    def body(self, names, count):
        """The statements of a module, which has these variables of its own for loops."""
        self.put("BEGIN")
        kept = self.variables
        self.variables = [*kept, *(Variable(it, kind) for it, kind in names)]
        for it in self.variables:
            if it.type == "Binary" and it.assignable and self.chance(0.97 if self.calm else 0.7):
                self.put(f"  {it.name} := Plus;")
        self.block(count, 3)
        self.variables = kept

    def several_procedures(self, least, most):
        """Procedures: a random number of them, within these bounds."""
        for _ in range(self.random.randint(least, most)):
            self.procedure()

    def files(self):
        """The texts of the files by name."""
        self.depth = 0
        library, imports = self.library() if self.chance(0.5) else ({}, None)
        self.lines = ["MODULE Main;", PUT_IMPORT]
        self.lines += [imports, ""] if imports else [TYPES + COUNTERS]
        names = self.module_variables()
        self.declare(names)
        self.variables += [Variable(it, kind) for it, kind in names]
        if not imports:
            self.lines.append(HELPERS)
        self.several_procedures(2, 5)
        own = [(self.fresh_name("k"), kind) for kind in ("CARDINAL", "INTEGER", "Colour", "CARDINAL")]
        own += [(self.fresh_name("w"), "CARDINAL") for _ in range(3)]
        # variables are declared before procedures: those of the body's loops come with the others
        at = self.lines.index("VAR")
        self.lines[at + 1 : at + 1] = [f"  {it}: {kind};" for it, kind in own]
        self.body(own, self.random.randint(6, 14))
        self.put("END Main.")
        return {**library, "Main.mod": text_of(*self.lines)}

    def library(self):
        """The files of a module with the types, some variables and some procedures, and the import of them all."""
        names = self.module_variables()
        self.variables = [Variable(it, kind) for it, kind in names]
        self.lines = []
        self.several_procedures(1, 3)
        self.body([], self.random.randint(2, 5))
        implementation = text_of(f"IMPLEMENTATION {LIBRARY_HEAD}", PUT_IMPORT, HELPERS, *self.lines, "END Lib.")
        return {"Lib.def": self.definition(names), "Lib.mod": implementation}, self.import_of(names)

    def definition(self, names):
        """The text of the definition, with the headings of the helpers and of all procedures so far."""
        headings = [line for line in HELPERS.split("\n") if line.startswith("PROCEDURE")]
        headings += [heading_text(it.name, it.formals, it.result) for it in self.procedures]
        variables = [f"  {it}: {kind};" for it, kind in names]
        return text_of(f"DEFINITION {LIBRARY_HEAD}", TYPES + COUNTERS, "VAR", *variables, *headings, "END Lib.")

    def import_of(self, names):
        """The import of all names of Lib."""
        own = [*(it for it, _ in names), *(it.name for it in self.procedures)]
        # an imported variable is no control variable, and procedures of Lib are known
        return f"FROM Lib IMPORT {', '.join([TYPE_NAMES, 'none', HELPER_NAMES, *own])};"
