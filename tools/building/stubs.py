"""Libraries as their types and signatures alone, over which crates above them are looked at before they are proved."""
import glob
import os
import re

from building.crates import TABLE, folder_of

CLAUSE = re.compile(r"(requires|ensures|decreases)\b")
USE = re.compile(r"^(pub(?:\([a-z]+\))? )?use ([^;]*);", re.M)
LETTER = re.compile(r"'(\\.[^']*|[^'\\])'")
# what a function answers in place of its body, by the type of its result
PLAIN = {"": "{}", "bool": "{ false }", "&str": '{ "" }', "&'static str": '{ "" }', "u8": "{ 0 }", "u32": "{ 0 }", "u64": "{ 0 }",
         "i64": "{ 0 }", "usize": "{ 0 }"}
# a body of any type, of which nothing is proved
ENDLESS = "{ loop {} }"


def behind(text, at):
    """The place behind a comment, a string or a letter that begins here, and none if none does."""
    if text.startswith("//", at):
        end = text.find("\n", at)
        return len(text) if end < 0 else end
    if text[at] == '"':
        end = at + 1
        while text[end] != '"':
            end += 2 if text[end] == "\\" else 1
        return end + 1
    letter = LETTER.match(text, at) if text[at] == "'" else None
    return letter.end() if letter else None


def closed(text, at):
    """The place behind the bracket that closes the one here."""
    opening = text[at]
    closing, depth = {"{": "}", "(": ")", "[": "]"}[opening], 0
    while at < len(text):
        passed = behind(text, at)
        if passed is not None:
            at = passed
            continue
        depth += (text[at] == opening) - (text[at] == closing)
        at += 1
        if depth == 0:
            return at
    return at


def without_comments(text):
    kept, at = [], 0
    while at < len(text):
        passed = behind(text, at)
        if passed is None:
            kept.append(text[at])
            at += 1
        else:
            kept.append("" if text.startswith("//", at) else text[at:passed])
            at = passed
    return "".join(kept)


def without_ghosts(text):
    """Drops each block `impl` with ghost members: what it says of a type is for proofs alone, or for a trait of another crate."""
    kept, at = [], 0
    for found in re.finditer(r"^(#\[[^\]]*\]\s*)*impl\b", text, re.M):
        if found.start() < at:
            continue
        opened = text.find("{", found.end())
        end = closed(text, opened)
        if re.search(r"\bghost (?!use)", text[opened:end]):
            kept.append(text[at:found.start()])
            at = end
    return "".join(kept) + text[at:]


def result_of(head):
    """The type of the result in the head of a function: what stands behind the arrow that is in no brackets."""
    depth, at = 0, 0
    while at < len(head):
        if head.startswith("->", at):
            if depth == 0:
                return " ".join(re.split(r"\bwhere\b", head[at + 2:])[0].split())
            at += 1
        else:
            depth += (head[at] in "([<") - (head[at] in ")]>")
        at += 1
    return ""


def plain_body(head):
    """A body that is proved by itself, if the type of the result has a plain value."""
    result = result_of(head)
    if result.startswith("Option<"):
        return "{ None }"
    if result.startswith("Result<") and result.endswith(", AllocError>"):
        return "{ Err(AllocError) }"
    return PLAIN.get(result, ENDLESS)


def without_bodies(text):
    """Each function with a plain body, and without its clauses. A drop is left as it is."""
    kept, at = [], 0
    for found in re.finditer(r"\bfn\s+\w+", text):
        if found.start() < at:
            continue
        kept.append(text[at:found.start()])
        begin, at, depth, head = found.start(), found.end(), 0, found[0]
        while True:
            clause = CLAUSE.match(text, at) if depth == 0 and not (text[at - 1].isalnum() or text[at - 1] == "_") else None
            if clause:
                at = closed(text, text.index("{", at))
                continue
            if depth == 0 and text[at] == ";":
                kept.append(head)
                break
            if depth == 0 and text[at] == "{":
                end = closed(text, at)
                kept.append(head + (text[at:end] if re.match(r"fn\s+drop\(", text[begin:]) else plain_body(head)))
                at = end
                break
            depth += (text[at] in "([") - (text[at] in ")]")
            head += text[at]
            at += 1
    return "".join(kept) + text[at:]


def last_name(path):
    return re.split(r" as |::", path)[-1].strip()


def without_idle_uses(text):
    """Drops names that are imported and that nothing uses any more."""
    rest = USE.sub("", text)
    used = lambda name: re.search(rf"\b{re.escape(name)}\b", rest)

    def kept(found):
        path = " ".join(found[2].split())
        group = re.fullmatch(r"(.*)::\{(.*)\}", path)
        if found[1]:
            return found[0]
        if not group:
            return found[0] if used(last_name(path)) else ""
        parts = [it.strip() for it in re.split(r",(?![^{]*\})", group[2]) if it.strip()]
        parts = [it for it in parts if "{" in it or used(group[1].split("::")[-1] if it == "self" else last_name(it))]
        return f"use {group[1]}::{{{', '.join(parts)}}};" if parts else ""

    return USE.sub(kept, text)


def stub_of(text):
    """A source file as its types and signatures alone."""
    text = without_ghosts(without_comments(text))
    text = re.sub(r"ghost use [^;]*;", "", text)
    text = re.sub(r"#!?\[(tactic|cycle|inline|cfg\(test\)|allow)[^\]]*\]", "", text)
    return without_idle_uses(re.sub(r"^\s*mod tests;", "", without_bodies(text), flags=re.M))


def write_stub(crate, folder):
    """Writes a crate as a stub, and answers which crates it names."""
    named = set()
    top = f"{folder_of(crate)}/src"
    for path in glob.glob(f"{top}/**/*.rt", recursive=True):
        with open(path, encoding="utf-8") as file:
            text = stub_of(file.read())
        copy = f"{folder}/{crate}/src/{os.path.relpath(path, top)}"
        os.makedirs(os.path.dirname(copy), exist_ok=True)
        with open(copy, "w", encoding="utf-8") as file:
            file.write("#![tactic(auto)]\n" * path.endswith("/lib.rt") + text)
        named |= {it for it in re.findall(r"\b([a-z_0-9]+)::", text) if it in TABLE}
    return sorted((named & set(TABLE[crate])) - {crate})


def write_stubs(crate, folder, is_proved):
    """Writes what stands below a crate and is not proved as stubs. Which crates each stub names, each behind those."""
    made = {}

    def write(name):
        if name not in made and not is_proved(name):
            names = write_stub(name, folder)
            for it in names:
                write(it)
            made[name] = names

    for name in TABLE[crate]:
        if name in TABLE:
            write(name)
    return made
