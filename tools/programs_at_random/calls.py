"""Calls of procedures, and their arguments."""
from .designators import Designators
from .kinds import WHOLE


class Calls(Designators):
    """Calls of the procedures that are visible."""

    def open_argument(self, kind, is_var):
        """An argument of an open array, or None."""
        found = [it.name for it in self.variables if it.type == kind and (it.assignable or not is_var)]
        if kind == "Open CHAR":
            found += [name + self.fill(part) for name, part in self.places("Text", is_var)]
            found += [] if is_var else ['"abcd"', "'some text'", '"wxyz"', '""']
        return self.pick(found) if found else None

    def argument(self, kind, is_var):
        """An argument of a formal of this type, or None if nothing fits."""
        if kind.startswith("Open"):
            return self.open_argument(kind, is_var)
        if kind in WHOLE or is_var:
            return self.place(kind, is_var)
        return self.value(kind, 2)

    def call_of(self, procedure):
        """A call, or None if there is no argument for a formal."""
        given = [self.argument(kind, is_var) for _, kind, is_var in procedure.formals]
        if None in given:
            return None
        return f"{procedure.name}({', '.join(given)})" if given or procedure.result else procedure.name

    def function_call(self, kind):
        """A call with a result of this type, or None."""
        found = [it for it in self.procedures if it.result == kind]
        return self.call_of(self.pick(found)) if found else None
