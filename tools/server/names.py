"""What names stand for: questions about small programs, whole and broken, and each word of the examples.

tools/server/names.txt has rows, each with texts, questions and answers that were counted out by hand. `%n` begins a row and `%%` ends
it, `%f` begins a text, `%b` the first text as it is changed then, and a line `%? WORD FILE LINE COLUMN = ANSWER` asks. Files are counted
from 0, lines and columns from 1, and a place in an answer is FILE:LINE:COLUMN. The questions:

    at          what the name at the place stands for: its kind, its name, where it is declared, and where it is implemented
    type        the same of the type of the thing at the place
    uses        where it stands: d where it is declared, i implemented, c closed, f imported and m used
    words       its declaration in words
    comment     its comment
    range       from where to where its declaration reaches
    children    the names that are declared in it
    scope       the declared names that may be written at the place
    members     those that may be written behind the point at the place
    exports     the same behind the IMPORT of a module
    modules     the modules that may be imported at the place
    call        the procedure in whose brackets the place lies, and the number of the argument
    formals     the formals of this procedure
    unresolved  the places of all names that stand for nothing, in all files

The server does not tell a name that is imported from one that is used, so f and m are taken as one.
"""
import json
import os
import re
from functools import cache, cached_property

from checks import check
from client import LIBRARY, TOP, server, uri_of
from texts import hover_text, written

HERE = os.path.dirname(os.path.abspath(__file__))
NOTHING = "-"
HEADING = re.compile(r"\s*(DEFINITION\s+|IMPLEMENTATION\s+)?MODULE\s+(\w+)")
# the kind of a thing by the kind of its token; a variable that can only be read is a constant
KINDS = {"namespace": "module", "type": "type", "variable": "variable", "parameter": "formal", "property": "field", "function": "procedure",
         "enumMember": "enumerated"}
# the number that the protocol has for a word of the language in a list of what may be written
KEYWORD = 14
# the kind of a highlight where a thing is declared, implemented or closed, and where it is used
WRITTEN, READ = 3, 2
STORED = re.compile(r"\d+ bytes?, |an open array, ")
VALUE = re.compile(r"= |ORD\(")


@cache
def predeclared():
    """The names that each program has."""
    with open(f"{TOP}/editors/words.json", encoding="utf-8") as file:
        standard = json.load(file)["standard"]
    return {*standard["types"], *standard["constants"], *standard["procedures"]}


def skipped_comment(text, at):
    """The place behind the comment that begins here."""
    depth = 0
    for found in re.compile(r"\(\*|\*\)").finditer(text, at):
        depth += 1 if found[0] == "(*" else -1
        if depth == 0:
            return found.end()
    return len(text)


def words_in(text):
    """The words of a text outside of comments and strings: the line, the character and the word, and whether a point stands in front.
    A character is a byte here."""
    at, found, is_behind_point = 0, [], False
    token = re.compile(r"\s+|\(\*|\"[^\"\n]*\"|'[^'\n]*'|[0-9][0-9A-Za-z]*|[A-Za-z][A-Za-z0-9]*|\.\.|.", re.ASCII)
    while at < len(text):
        part = token.match(text, at)
        if part[0] == "(*":
            at = skipped_comment(text, at)
            continue
        if re.match("[A-Za-z]", part[0]):
            line = text.count("\n", 0, at)
            found.append((line, at - (text.rfind("\n", 0, at) + 1), part[0], is_behind_point))
        if not part[0].isspace():
            is_behind_point = part[0] == "."
        at = part.end()
    return found


def as_bytes(text):
    """A text with one character for each of its bytes."""
    return text.encode().decode("latin-1")


def tokens_of(client, uri, legend):
    """The tokens of a text as the server tells them, by their places: how long each is, what it is, and what more is said of it."""
    data = client.result("textDocument/semanticTokens/full", {"textDocument": {"uri": uri}})["data"]
    tokens, line, character = {}, 0, 0
    for down, along, length, kind, more in zip(*[iter(data)] * 5):
        line, character = line + down, along + (0 if down else character)
        extra = {name for number, name in enumerate(legend["tokenModifiers"]) if more >> number & 1}
        tokens[line, character] = length, legend["tokenTypes"][kind], extra
    return tokens


def nameless(text, tokens):
    """The words of a text that stand for nothing: no token is told there. One behind a point is left out if what stands in front of the
    point is one."""
    found, was_known = [], True
    for line, character, word, is_behind_point in words_in(text):
        is_known = tokens.get((line, character), (0,))[0] == len(word)
        if not is_known and (was_known or not is_behind_point):
            found.append((line, character))
        was_known = is_known
    return found


def file_name(text):
    sort, name = HEADING.match(text).groups()
    return name + (".def" if (sort or "").startswith("DEF") else ".mod")


class Row:
    """A row of names.txt: its texts on the disk and in a server, and what the server answers."""

    def __init__(self, title):
        self.title = title
        self.texts = []
        self.now = None
        self.questions = []

    def begin(self, room):
        self.names = [file_name(it) for it in self.texts]
        folder = written(room, f"names{len(os.listdir(room))}", dict(zip(self.names, self.texts)))
        self.client = server(folder, library=written(room, "no-library", {}))
        began = self.client.begin(("utf-8",))
        self.legend = began["capabilities"]["semanticTokensProvider"]["legend"]
        for name, text in zip(self.names, self.texts):
            self.client.open(name, text)
            self.client.diagnostics(name, 1)
        if self.now is not None:
            self.texts[0] = self.now
            self.client.change(self.names[0], 2, [{"text": self.now}])
            self.client.diagnostics(self.names[0], 2)
        self.numbers = {self.client.uri(name): number for number, name in enumerate(self.names)}

    @cached_property
    def tokens(self):
        return [tokens_of(self.client, self.client.uri(name), self.legend) for name in self.names]

    def asked(self, method, where, **more):
        file, line, column = where
        name = self.names[file] if file < len(self.names) else "Nowhere.mod"
        return self.client.result(f"textDocument/{method}", self.client.at(name, line - 1, column - 1, **more))

    def place(self, location):
        """The place of a location, as a question has it."""
        start = location["range"]["start"]
        return self.numbers[location["uri"]], start["line"] + 1, start["character"] + 1

    def token_at(self, where):
        """The token at a place, or directly in front of it."""
        file, line, column = where
        at = max(it for it in self.tokens[file] if it <= (line - 1, column - 1))
        return self.tokens[file][at]

    def kind_at(self, where):
        _, kind, more = self.token_at(where)
        return "constant" if kind == "variable" and "readonly" in more else KINDS[kind]

    def named(self, location):
        """The name at a location."""
        start, end = location["range"]["start"], location["range"]["end"]
        line = as_bytes(self.texts[self.numbers[location["uri"]]]).split("\n")[start["line"]]
        return line[start["character"]:end["character"]]

    def at(self, where):
        declared, implemented = self.asked("definition", where), self.asked("implementation", where)
        if declared is None:
            return NOTHING
        places = [self.place(declared)] + ([self.place(implemented)] if implemented != declared else [])
        return " ".join([self.kind_at(where), self.named(declared), *map(shown, places)])

    def type(self, where):
        found = self.asked("typeDefinition", where)
        if found is None:
            return NOTHING
        return f"{self.kind_at(self.place(found))} {self.named(found)} {shown(self.place(found))}"

    def letter(self, place, where, mentions, highlights):
        """What a name does at one of its places. A sign is added where tokens or highlights say something else."""
        declared, implemented = (self.place(self.asked(it, where)) for it in ("definition", "implementation"))
        is_used = place in mentions
        letter = "m" if is_used else "d" if place == declared else "i" if place == implemented else "c"
        is_declared = "declaration" in self.token_at(place)[2]
        sort = READ if is_used else WRITTEN
        is_right = is_declared == (letter in "di") and highlights.get(place, sort) == sort
        return letter if is_right else f"{letter}!"

    def uses(self, where):
        places = [self.place(it) for it in self.asked("references", where, context={"includeDeclaration": True})]
        mentions = [self.place(it) for it in self.asked("references", where, context={"includeDeclaration": False})]
        uri = self.client.uri(self.names[where[0]])
        highlights = {self.place({**it, "uri": uri}): it["kind"] for it in self.asked("documentHighlight", where)}
        here = {it for it in places if it[0] == where[0]}
        if here != set(highlights) or not set(mentions) <= set(places):
            return f"{sorted(here)} and {sorted(highlights)}"
        return " ".join(shown(it) + self.letter(it, where, mentions, highlights) for it in sorted(places))

    def paragraphs(self, where):
        """The declaration that a hover shows, and the paragraphs behind it."""
        _, code, rest = hover_text(self.asked("hover", where)).split("```")
        return code.split("\n")[1:-1], [it for it in rest.split("\n\n") if it]

    def words(self, where):
        lines, _ = self.paragraphs(where)
        return "\n".join(lines[:1] + [it for it in lines[1:] if not VALUE.match(it)])

    def comment(self, where):
        _, rest = self.paragraphs(where)
        return "\n\n".join(it for it in rest if not STORED.match(it)) or NOTHING

    def symbol(self, where):
        """What is told of the declaration of the thing at a place among the symbols of its file."""
        declared = self.asked("definition", where)
        several = self.client.result("textDocument/documentSymbol", {"textDocument": {"uri": declared["uri"]}})
        while several:
            one = several.pop()
            if one["selectionRange"] == declared["range"]:
                return one
            several += one["children"]
        raise KeyError(where)

    def range(self, where):
        reach = self.symbol(where)["range"]
        return "-".join(f"{it['line'] + 1}:{it['character'] + 1}" for it in (reach["start"], reach["end"]))

    def children(self, where):
        return " ".join(it["name"] for it in self.symbol(where)["children"]) or NOTHING

    def scope(self, where):
        known = predeclared()
        offered = self.asked("completion", where)
        return " ".join(it["label"] for it in offered if it["kind"] != KEYWORD and it["label"] not in known) or NOTHING

    exports = modules = scope

    def members(self, where):
        file, line, column = where
        return self.scope((file, line, column + 1))

    def call(self, where):
        told = self.asked("signatureHelp", where)
        found = told and re.match(r"PROCEDURE (\w+)", told["signatures"][0]["label"])
        return f"{found[1]} {told['activeParameter']}" if found else NOTHING

    def formals(self, where):
        told = self.asked("signatureHelp", where)
        return " ".join(f"{it['label']};" for it in told["signatures"][0]["parameters"])

    def unresolved(self, _):
        found = [(file, *it) for file, text in enumerate(self.texts) for it in nameless(as_bytes(text), self.tokens[file])]
        return " ".join(shown((file, line + 1, character + 1)) for file, line, character in found) or NOTHING

    def answer(self, question):
        word, *where = question.split(" ")
        return getattr(self, word)(tuple(map(int, where)))


def shown(place):
    return ":".join(map(str, place))


def rows_of(path):
    with open(path, encoding="utf-8") as file:
        lines = file.read().split("\n")
    rows, row = [], None
    for line in lines[:-1]:
        if line.startswith("%n "):
            row = Row(line[len("%n "):])
        elif line == "%%":
            rows.append(row)
        elif line.startswith("%? "):
            row.questions.append(line[len("%? "):].split(" = ", 1))
        elif line == "%f":
            row.texts.append("")
        elif line == "%b":
            row.now = ""
        elif row.now is not None:
            row.now += line + "\n"
        else:
            row.texts[-1] += line + "\n"
    return rows


def try_declarations(room):
    for row in rows_of(f"{HERE}/names.txt"):
        row.begin(room)
        for question, wanted in row.questions:
            came = row.answer(question)
            is_well = came == (re.sub(r"f\b", "m", wanted) if question.startswith("uses ") else wanted)
            check(f"{row.title}: {question} = {wanted}", is_well, came)
        row.client.end()


def imported_files(texts):
    """The files of the library that texts import, and those that these import."""
    known, found, rest = sorted(os.listdir(LIBRARY)), [], list(texts)
    while rest:
        words = {word for _, _, word, _ in words_in(as_bytes(rest.pop()))}
        for name in known:
            if name[:-len(".def")] in words and name not in found:
                found.append(name)
                with open(f"{LIBRARY}/{name}", encoding="utf-8") as file:
                    rest.append(file.read())
    return found


def check_words(client, title, path, legend):
    """Each word of a file of a program stands for something."""
    with open(path, encoding="utf-8") as file:
        text = as_bytes(file.read())
    found = nameless(text, tokens_of(client, uri_of(path), legend))
    check(f"{title}: each word stands for something", found == [] and words_in(text) != [], found)
