"""Texts with letters beyond ASCII and all ends of lines, files whose names have blanks and such letters, and texts that are cut."""
import json
import os

from checks import check
from client import bytes_of, server, uri_of


def written(room, name, files):
    """A folder with these files."""
    folder = f"{room}/{name}"
    os.makedirs(folder, exist_ok=True)
    for file, text in files.items():
        with open(f"{folder}/{file}", "w", encoding="utf-8", newline="") as out:
            out.write(text)
    return folder


def place(text, word, number=0):
    """The line and the character of a word that stands in a text, from 0."""
    at = -1
    for _ in range(number + 1):
        at = text.index(word, at + 1)
    line = text.count("\n", 0, at)
    return line, at - (text.rfind("\n", 0, at) + 1)


def range_at(line, begin, length):
    return {"start": {"line": line, "character": begin}, "end": {"line": line, "character": begin + length}}


def span(text, word, number=0):
    return range_at(*place(text, word, number), len(word))


def hover_text(result):
    contents = (result or {}).get("contents", "")
    return contents["value"] if isinstance(contents, dict) else str(contents)


# A text with letters of one to four bytes, and all ends of lines. Its lines begin at the bytes 0, 10, 12, 14 and 15.
WIDE = "a\u00e4\U0001f600b\r\nc\rd\n\n\u20ac"
BEGINS = (0, 10, 12, 14, 15)
# Places in it: the line and the character, and the bytes in front of it in UTF-16 and in UTF-8
PLACES = [
    (0, 0, 0, 0),
    (0, 1, 1, 1),
    (0, 2, 3, 2),
    (0, 3, 7, 3),
    (0, 4, 7, 4),
    (0, 5, 8, 5),
    (0, 99, 8, 8),
    (1, 1, 11, 11),
    (2, 7, 13, 13),
    (3, 0, 14, 14),
    (4, 1, 18, 16),
    (9, 9, 18, 18),
]
# Bytes in front of places, and the places in UTF-16
BACK = [
    (0, 0, 0),
    (3, 0, 2),
    (7, 0, 4),
    (10, 1, 0),
    (12, 2, 0),
    (15, 4, 0),
    (18, 4, 1),
]
ENCODINGS = ("utf-16", "utf-8")


def with_insertion(text, line, character, new):
    """The changes that give an open text these bytes, and then put others at a place of it."""
    return [{"text": text}, {"range": range_at(line, character, 0), "text": new}]


def try_places(room):
    """A letter is put at each place of the text, which stands in a comment. A hover shows the comment, and so where the letter stands."""
    front = "MODULE P;\nVAR v: CHAR; (*\n"
    whole = WIDE.encode()
    for number, encoding in enumerate(ENCODINGS):
        client = server(written(room, f"places-{encoding}", {}))
        client.begin((encoding,))
        client.open("P.mod", "")
        for version, (line, character, *offsets) in enumerate(PLACES, 2):
            title = f"the place {line}:{character} in {encoding}"
            if line < len(BEGINS):
                client.change("P.mod", version, with_insertion(f"{front}{WIDE}*)\nEND P.\n", line + front.count("\n"), character, "X"))
                told = hover_text(client.result("textDocument/hover", client.at("P.mod", 1, 4)))
                offset = offsets[number]
                wanted = (whole[:offset] + b"X" + whole[offset:]).decode("utf-8", "replace")
                check(title, told.endswith("\n\n" + wanted), (told, wanted))
            else:
                check(f"{title}: all bytes stand in front of a place behind the text", offsets[number] == len(whole), offsets)
                client.change("P.mod", version, with_insertion("MODULE P;\nEND P", line, character, "."))
                check(title, client.diagnostics("P.mod", version) == [], client.published)
        client.end()


def try_places_back(room):
    """A statement is put at each place of the text, which stands in a comment: what is told of its name is told there."""
    front = "MODULE P;\nVAR v: CHAR;\nBEGIN (*\n"
    lines = front.count("\n")
    declared = range_at(1, 4, 1)
    for encoding in ENCODINGS:
        client = server(written(room, f"back-{encoding}", {}))
        client.begin((encoding,))
        client.open("P.mod", "")
        version = 1
        for offset, line, character in BACK:
            if encoding == "utf-8":
                character = offset - BEGINS[line]
            title = f"the place behind {offset} bytes in {encoding}"
            # the name stands behind the two characters that end the comment
            here = range_at(line + lines, character + 2, 1)
            version += 2
            for name, at in (("w", version - 1), ("v", version)):
                client.change("P.mod", at, with_insertion(f"{front}{WIDE}*)\nEND P.\n", line + lines, character, f"*){name}:='x';(*"))
                told = [(it["code"], it["range"]) for it in client.diagnostics("P.mod", at)]
                check(f"{title}: what is refused of {name}", told == ([(30, here)] if name == "w" else []), told)
            found = client.result("textDocument/documentHighlight", client.at("P.mod", 1, 4))
            check(f"{title}: highlights", found == [{"kind": 3, "range": declared}, {"kind": 2, "range": here}], found)
            found = client.result("textDocument/definition", client.at("P.mod", here["start"]["line"], here["start"]["character"]))
            check(f"{title}: definition", found == {"uri": client.uri("P.mod"), "range": declared}, found)
        client.end()


PARTS = {"Parts.def": "DEFINITION MODULE Parts;\nPROCEDURE Make;\nEND Parts.\n",
         "Parts.mod": "IMPLEMENTATION MODULE Parts;\nPROCEDURE Make;\nBEGIN\nEND Make;\nEND Parts.\n"}
USER = "MODULE User;\nIMPORT Parts;\nBEGIN\n  Parts.Make\nEND User.\n"


def open_under(client, uri, text):
    """What is told of a text that is opened under this address."""
    client.open(uri, text)
    return client.diagnostics(uri)


def try_paths(room):
    """Names of files with blanks, letters beyond ASCII and signs, and addresses that name no file of this machine."""
    written(room, "a b", {**PARTS, "\u00e4.mod": USER, "User.mod": USER})
    front = f"{uri_of(room)}/a%20b"
    other = f"{front}/%C3%A4.mod"
    client = server(room)
    client.begin()
    here = {"textDocument": {"uri": f"{front}/User.mod"}, "position": {"line": 3, "character": 8}}
    told = open_under(client, f"{front}/User.mod", USER)
    check("a program in a folder with a blank", told == [], told)
    found = client.result("textDocument/definition", here)
    make = span(PARTS["Parts.def"], "Make")
    check("the address of a definition", found == {"uri": f"{front}/Parts.def", "range": make}, found)
    called = {"uri": other, "range": span(USER, "Make")}
    found = client.result("textDocument/references", {**here, "context": {"includeDeclaration": False}})
    check("the address of a file on the disk", called in found, found)
    told = open_under(client, other, f"\n{USER}")
    check("the file of this address is opened", told == [], told)
    found = client.result("textDocument/references", {**here, "context": {"includeDeclaration": False}})
    places = [it["range"] for it in found if it["uri"] == other]
    check("its path", places == [span(f"\n{USER}", "Make")], found)
    written(room, "x%2", PARTS)
    local = f"{uri_of(room).replace('file://', 'file://localhost', 1)}/x%2/User.mod"
    told = open_under(client, local, USER)
    check("an address with the name of this machine, and a sign that escapes nothing", told == [], told)
    found = client.result("textDocument/definition", {**here, "textDocument": {"uri": local}})
    check("a sign that is escaped", found == {"uri": f"{uri_of(room)}/x%252/Parts.def", "range": make}, found)
    for uri in ("untitled:Untitled-1", f"{front.replace('file://', 'file://other', 1)}/User.mod"):
        told = [it["range"] for it in open_under(client, uri, USER)]
        check(f"{uri} is no file of this machine", told == [span(USER, "Parts")], told)
    client.end()


# Texts, and the same without a tree: in one a name and the blank in front of it are replaced by a sign, then the name alone; in one a
# sign is doubled
REPLACED = "MODULE S;\nVAR abc, XY, def: CHAR;\nBEGIN\n  abc := XY; XY := def; def := abc\nEND S.\n"
DOUBLED = "MODULE S;\nVAR abc, def: CARDINAL;\nBEGIN\n  abc := ORD((def)); def := abc\nEND S.\n"


def changed_text(client, name, old, new):
    """Opens a text, and changes it."""
    client.open(name, old)
    check(f"{name}: the text is accepted", client.diagnostics(name) == [], client.published)
    client.change(name, 2, [{"text": new}])
    check(f"{name}: the text has no tree", len(client.diagnostics(name, 2)) == 1, client.published)


def try_shifts(room):
    """Names of the last text that had a tree are found where they stand now."""
    client = server(written(room, "shifts", {}))
    client.begin()
    new = REPLACED.replace(":= XY", ":=(")
    changed_text(client, "Replaced.mod", REPLACED, new)
    for title, word, name in (("in front of the change", "abc :=", "abc"), ("behind the change", "def :=", "def")):
        found = client.result("textDocument/definition", client.at("Replaced.mod", *place(new, word)))
        check(f"a name {title}", found == {"uri": client.uri("Replaced.mod"), "range": span(new, name)}, found)
    for name, places in (("abc", (0, 1, 2)), ("def", (0, 1, 2)), ("XY", (0, 1))):
        found = client.result("textDocument/documentHighlight", client.at("Replaced.mod", *place(new, name)))
        wanted = [span(new, name, number) for number in places]
        check(f"all places of {name}, but for one that changed", [it["range"] for it in found] == wanted, (found, wanted))
    new = REPLACED.replace("XY; XY", "(; XY")
    changed_text(client, "Lost.mod", REPLACED, new)
    for name, places in (("abc", (0, 1, 2)), ("def", (0, 1, 2)), ("XY", (0, 1))):
        found = client.result("textDocument/documentHighlight", client.at("Lost.mod", *place(new, name)))
        wanted = [span(new, name, number) for number in places]
        check(f"all places of {name}, but for one that is lost", [it["range"] for it in found] == wanted, (found, wanted))
    new = DOUBLED.replace("((", "(((")
    changed_text(client, "Doubled.mod", DOUBLED, new)
    for title, word in (("directly behind", "def)"), ("behind", "def :=")):
        found = client.result("textDocument/definition", client.at("Doubled.mod", *place(new, word)))
        check(f"a name {title} a sign that is doubled", found == {"uri": client.uri("Doubled.mod"), "range": span(new, "def")}, found)
    found = client.result("textDocument/prepareRename", client.at("Doubled.mod", *place(new, "def)")))
    wanted = {"range": span(new, "def", 1), "placeholder": "def"}
    check("what is renamed directly behind a sign that is doubled", found == wanted, (found, wanted))
    found = client.result("textDocument/documentHighlight", client.at("Doubled.mod", *place(new, "def")))
    wanted = [span(new, "def", number) for number in range(3)]
    check("all places of a name, one directly behind a sign that is doubled", [it["range"] for it in found] == wanted, (found, wanted))
    found = client.result("textDocument/documentHighlight", client.at("Doubled.mod", *place(new, "abc")))
    check("a place behind a sign that is doubled", [it["range"] for it in found] == [span(new, "abc"), span(new, "abc", 1), span(new, "abc", 2)], found)
    client.end()


# A small program, with letters beyond ASCII in a comment and in a string
SMALL = "MODULE M; (* \u00e4\U0001f600 *)\nFROM Console IMPORT Put;\nVAR c: CHAR;\nBEGIN c := '\u20ac'; Put(c)\nEND M."
# Requests about places of its lines, each behind the last letter of a line
LINES = 5
FAR = 1000
METHODS = [
    "textDocument/hover",
    "textDocument/definition",
    "textDocument/implementation",
    "textDocument/typeDefinition",
    "textDocument/references",
    "textDocument/documentHighlight",
    "textDocument/prepareRename",
    "textDocument/documentSymbol",
    "textDocument/completion",
    "textDocument/signatureHelp",
    "textDocument/semanticTokens/full",
    "textDocument/foldingRange",
    "textDocument/formatting",
    "workspace/symbol",
]


def request_at(number, method):
    place_of = {"line": number % LINES, "character": FAR}
    return {"jsonrpc": "2.0", "id": number, "method": method, "params": {"textDocument": {"uri": "untitled:M"}, "query": "", "position": place_of}}


def try_each_byte(room):
    """The program is cut at each byte. Something is told of each text, and each request about it has a result, and one alone."""
    client = server(room)
    client.begin()
    whole = SMALL.encode()
    for at in range(len(whole) + 1):
        client.open("untitled:M", whole[:at].decode("utf-8", "replace"))
        came = client.take()
        check(f"cut at byte {at}: it is told what is refused", came.get("method") == "textDocument/publishDiagnostics", came)
        client.send_bytes(b"".join(bytes_of(request_at(number, method)) for number, method in enumerate(METHODS)))
        answers = [client.take() for _ in METHODS]
        unanswered = [it for number, it in enumerate(answers) if it.get("id") != number or "result" not in it]
        check(f"cut at byte {at}: all requests are answered", unanswered == [], unanswered)
    check("nothing else comes back", client.all_for(b"") == [], json.dumps(client.published))
    client.end()
