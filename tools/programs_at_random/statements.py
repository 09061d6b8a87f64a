"""Statements with statements in them: IF, CASE, FOR, WHILE, REPEAT, LOOP and WITH."""
from .kinds import BASE, COLOURS, FIELDS, Variable
from .simple_statements import SimpleStatements

COUNTED = ("CARDINAL", "INTEGER", "Colour", "Small")


class Statements(SimpleStatements):
    """Sequences of statements. A depth says how many statements may stand in one another."""

    def block(self, count, depth):
        """Statements, one level further in."""
        self.depth += 1
        for _ in range(count):
            self.statement(depth)
        self.depth -= 1

    def statement(self, depth):
        """A statement of any kind."""
        simple = (
            *(self.assign, self.assign, self.assign, self.show, self.show, self.step, self.copy_whole),
            *(self.procedure_call, self.change_set, self.procedure_variable, self.leave),
        )
        nested = (
            *(self.branch, self.branch, self.case, self.loop_for, self.loop_for, self.loop_while),
            *(self.loop_repeat, self.loop, self.with_record),
        )
        (self.pick(nested)(depth - 1) if depth > 0 and self.chance(0.35) else self.pick(simple)())

    def branch(self, depth):
        """IF."""
        self.put(f"IF {self.value('BOOLEAN', 2)} THEN")
        self.block(self.random.randint(1, 3), depth)
        for _ in range(self.pick((0, 0, 1, 2))):
            self.put(f"ELSIF {self.value('BOOLEAN', 2)} THEN")
            self.block(self.random.randint(1, 2), depth)
        if self.chance(0.5):
            self.put("ELSE")
            self.block(self.random.randint(1, 2), depth)
        self.put("END;")

    # ---- CASE

    def labels_of(self, kind):
        """Values for labels, in order."""
        if kind == "Colour":
            return list(COLOURS)
        if kind == "CHAR":
            return [f'"{it}"' for it in "abcdefmz"]
        return sorted(self.random.sample(range(0, self.pick((8, 12, 40, 3000))), 7))

    def selector(self, kind):
        """An expression of a type, which CASE selects by."""
        if kind in ("Colour", "CHAR"):
            return self.value(kind, 2)
        return f"({self.value(BASE.get(kind, kind), 2)}) MOD {self.pick((4, 8, 12))}"

    def arms_of(self, kind, values):
        """The labels of each arm."""
        arms, at = [], 0
        while at < len(values) and len(arms) < 4:
            step = self.random.randint(1, 2)
            items = [str(it) for it in values[at : at + step]]
            if kind != "CHAR" and self.chance(0.3) and len(items) == 2:
                items = [f"{items[0]} .. {items[1]}"]
            arms.append(items)
            at += step
        self.random.shuffle(arms)
        return arms

    def case(self, depth):
        """CASE."""
        kind = self.pick(("CARDINAL", "CHAR", "Colour", "INTEGER", "Small"))
        values = self.labels_of(kind)
        selector = self.selector(kind)
        arms = self.arms_of(kind, values)
        self.put(f"CASE {selector} OF")
        for number, items in enumerate(arms):
            self.put(f"{'| ' if number else '  '}{', '.join(items)}:")
            self.block(self.random.randint(1, 2), depth)
        if self.calm or self.chance(0.7):
            self.put("ELSE")
            self.block(self.random.randint(0, 2), depth)
        self.put("END;")

    # ---- loops

    def turn(self, name, first, count, depth):
        """What a loop does in each turn. It does not assign to the variable that counts the turns."""
        self.busy.add(name)
        around = self.variables
        self.variables = [Variable(it.name, it.type, it.assignable and it.name != name) for it in around]
        self.put(f"  {first}")
        self.block(count, depth)
        self.variables = around
        self.busy.discard(name)

    def loop_for(self, depth):
        """FOR, if there is a control variable that is not in use."""
        counters = [it for it in self.variables if it.type in COUNTED and it.name.startswith("k")]
        counters = [it.name for it in counters if it.name not in self.busy]
        if not counters:
            return
        name = self.pick(counters)
        kind = next(it.type for it in self.variables if it.name == name)
        by = self.pick(("", "", " BY 2", " BY -1", " BY 3"))
        first, last = self.bounds_of(kind)
        if by == " BY -1" and kind == "Colour":
            first, last = "blue", self.pick(COLOURS)
        self.put(f"FOR {name} := {first} TO {last}{by} DO")
        self.turn(name, "Tick;", self.random.randint(1, 3), depth)
        self.put("END;")

    def bounds_of(self, kind):
        """Where a FOR loop begins and ends."""
        if kind == "Colour":
            return "red", self.value("Colour", 1)
        return self.random.randint(0, 9), self.random.randint(0, 12)

    def counter(self):
        """A variable of its own that counts the turns of a loop, or None."""
        found = [it.name for it in self.variables if it.name.startswith("w") and it.name not in self.busy]
        return self.pick(found) if found else None

    def counted_turn(self, name, depth):
        """A turn of a loop that counts its turns in this variable."""
        self.turn(name, f"INC({name}); Tick;", self.random.randint(1, 3), depth)

    def loop_while(self, depth):
        """WHILE."""
        if name := self.counter():
            self.put(f"{name} := 0;")
            self.put(f"WHILE ({name} < {self.random.randint(1, 5)}) & {self.operand('BOOLEAN', 2)} DO")
            self.counted_turn(name, depth)
            self.put("END;")

    def loop_repeat(self, depth):
        """REPEAT."""
        if name := self.counter():
            self.put(f"{name} := 0;")
            self.put("REPEAT")
            self.counted_turn(name, depth)
            self.put(f"UNTIL ({name} >= {self.random.randint(1, 4)}) OR {self.operand('BOOLEAN', 2)};")

    def loop(self, depth):
        """LOOP."""
        if name := self.counter():
            self.put(f"{name} := 0;")
            self.put("LOOP")
            self.loops += 1
            self.put(f"  IF {name} >= {self.random.randint(1, 5)} THEN EXIT END;")
            self.counted_turn(name, depth)
            if self.chance(0.4):
                self.put(f"  IF {self.value('BOOLEAN', 2)} THEN EXIT END;")
            self.loops -= 1
            self.put("END;")

    # ---- WITH

    def with_record(self, depth):
        """WITH."""
        found = [(it.name, "") for it in self.variables if it.type == "Item"]
        found += [(it.name, "[{Wide:0:3}]") for it in self.variables if it.type == "Items"]
        if not found:
            return
        name, part = self.pick(found)
        assignable = next(it.assignable for it in self.variables if it.name == name)
        self.put(f"WITH {name + self.fill(part)} DO")
        around = self.variables
        fields = [Variable(field, kind, assignable) for field, kind in FIELDS.items()]
        self.variables = [it for it in around if it.name not in FIELDS] + fields
        self.block(self.random.randint(1, 3), depth)
        self.variables = around
        self.put("END;")
