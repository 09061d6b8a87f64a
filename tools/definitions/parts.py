"""Files of definitions as their parts: which definition stands on which lines, and which others it names."""
import re

USE = re.compile(r"(pub )?use Rattle\.(\w+)\.(specs(?:\.\w+)+)(?:\.\{([^}]*)\}| as (\S+))?\s*$")
SIGNATURE = re.compile(r"(?:(?:abbrev|unfoldable|pub) )*(?:(data|record) ([^\s({:]+)|([^\s(){}]+)(?= :(?:\s|$)))")
CONSTRUCTORS = re.compile(r"(?:pub )?([^\s(){}:]+(?: [^\s(){}:]+)*)(?: (:))?(?:\s|$)")
BLOCK = re.compile(r"(?:abbrev )?(mutual|module)\b")
WORD = re.compile(r"[^\s(){}\[\],;]+")
BINDER = re.compile(r"[({]([^\s(){}:]+(?: [^\s(){}:]+)*) : ")
# what a format says of reading: a field of its own lines, up to the semicolon, or one within a line
READING = re.compile(r"(?:pub )?reading [:=]")
READING_WITHIN = re.compile(r"\breading = [^;{}]*;")


def words_of(name):
    """The words by which a name is found: an operator has those between its places."""
    return [it for it in name.split("◌") if it]


class Part:
    """A definition: its name, those of its constructors, its lines, and the words on them. The lines and words of a module's
    head count with each part in it. What a format says of reading stands apart, since who only writes needs none of it. A name
    that it binds is no other definition's."""

    def __init__(self, name, heads):
        self.name, self.made, self.lines, self.words, self.bound = name, set(), [], set(), set()
        self.reading_lines, self.reading_words, self.is_reading = [], set(), False
        for head in heads:
            self.lines += head.lines
            self.words |= head.words

    def add(self, number, bare):
        self.bound.update(name for names in BINDER.findall(bare) for name in names.split())
        if self.is_reading or READING.match(bare):
            self.is_reading = bare.startswith("reading") or self.is_reading
            self.is_reading = self.is_reading and not bare.endswith(";")
            self.reading_lines.append(number)
            self.reading_words.update(WORD.findall(bare))
            return
        for found in READING_WITHIN.findall(bare):
            self.reading_words.update(WORD.findall(found))
        self.lines.append(number)
        self.words.update(WORD.findall(READING_WITHIN.sub("", bare)))

    def lines_of(self, with_reading):
        return self.lines + self.reading_lines if with_reading else self.lines

    def words_of(self, with_reading):
        return self.words | self.reading_words if with_reading else self.words


class Head:
    """The head of a module, or of definitions that name one another."""

    def __init__(self, indent, lines):
        self.indent, self.lines, self.words = indent, lines, set()

    def add(self, number, bare):
        self.lines.append(number)
        self.words.update(WORD.findall(bare))


class Reader:
    """Reads the lines of a file, but for its uses, into parts."""

    def __init__(self):
        self.parts, self.heads, self.comments = [], [], []
        self.part = self.open_head = self.body = None
        self.is_data = self.names_go_on = False

    def line(self, number, bare, indent):
        if self.open_head:
            self.head_line(number, bare)
        elif self.body is not None and indent >= self.body:
            self.body_line(number, bare, indent)
        elif bare.startswith("--"):
            self.comments.append(number)
        else:
            self.body = None
            self.heads = [it for it in self.heads if it.indent < indent]
            self.definition_line(number, bare, indent)

    def head_line(self, number, bare):
        self.open_head.add(number, bare)
        if bare.endswith("where"):
            self.open_head = None

    def body_line(self, number, bare, indent):
        """A line of a data or of a record. A list of constructors may go on over lines."""
        self.part.add(number, bare)
        if not self.is_data or bare.startswith("--") or (indent != self.body and not self.names_go_on):
            return
        found = CONSTRUCTORS.match(bare)
        if found:
            self.part.made.update(found.group(1).split())
            self.names_go_on = found.group(2) is None and found.end() == len(bare)

    def definition_line(self, number, bare, indent):
        block, signature = BLOCK.match(bare), SIGNATURE.match(bare)
        if block:
            head = Head(indent, self.comments)
            head.add(number, bare)
            self.heads.append(head)
            self.comments = []
            self.open_head = head if block.group(1) == "module" and not bare.endswith("where") else None
            return
        if signature and indent == (self.heads[-1].indent + 2 if self.heads else 0):
            self.begin(signature, indent)
        if self.part:
            self.part.lines += self.comments
            self.comments = []
            self.part.add(number, bare)

    def begin(self, signature, indent):
        kind, declared, defined = signature.groups()
        self.part = Part(declared or defined, self.heads)
        self.parts.append(self.part)
        if kind:
            self.body, self.is_data, self.names_go_on = indent + 2, kind == "data", False


class Parts:
    """The parts of a file, by their names and by those of constructors, and what it takes from other files."""

    def __init__(self, text):
        self.names, self.taken, self.aliases = {}, {}, {}
        reader = Reader()
        for number, line in enumerate(text.split("\n")):
            bare, indent = line.strip(), len(line) - len(line.lstrip())
            if bare.startswith(("use ", "pub use ")) and indent == 0:
                self.take(bare)
            elif bare:
                reader.line(number, bare, indent)
        self.parts = reader.parts
        for part in self.parts:
            for word in {it for name in {part.name, *part.made} for it in words_of(name)}:
                self.names.setdefault(word, []).append(part)

    def take(self, bare):
        use = USE.match(bare)
        if not use:
            return
        _, crate, path, names, alias = use.groups()
        if not names:
            self.aliases[alias or path.split(".")[-1]] = (crate, path)
            return
        for it in filter(None, (it.strip() for it in names.split(","))):
            other, _, own = it.partition(" as ")
            for word in words_of(own or other):
                self.taken[word] = (crate, path, other)

    def named_by(self, part, with_reading):
        """What a part names: (None, name) of this file, or ((crate, path), name) of another one."""
        for word in part.words_of(with_reading):
            head, dot, rest = word.partition(".")
            if head in part.bound:
                continue
            for it in {word, head} | ({rest} if dot and not head else set()):
                if it in self.names:
                    yield None, it
                elif it in self.taken:
                    crate, path, other = self.taken[it]
                    yield (crate, path), other
            if dot and head in self.aliases and rest:
                yield self.aliases[head], rest.split(".")[0]
