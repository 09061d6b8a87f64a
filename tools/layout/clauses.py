"""The clauses of sources: `requires` and `ensures`, and what is `ghost`. A clause with a long line is laid out anew."""
import re

from . import lines as page
from .trees import Unreadable, tree_of
from .words import words_of

HEAD = re.compile(r"^( *)((?:pub )?(?:(?:ensures|requires)\*?(?: \w+)?|ghost \w+(?: =|:))) \{", re.M)
TEXT = re.compile(r"""b?"(?:\\.|[^"\\])*"|b?'(?:\\.|[^'\\])'""", re.S)
ENDS = {"", ";", ","}


def end_of(text, at):
    """Where the bracket at this place is closed."""
    depth = 0
    while True:
        said = TEXT.match(text, at)
        depth += 0 if said else (text[at] == "{") - (text[at] == "}")
        if not said and depth == 0:
            return at
        at = said.end() if said else at + 1


def laid_clause(head, inner, behind, indent):
    """A clause on several lines. What goes on below its first line stands in by a step."""
    begin = f"{head} {{ "
    tree = tree_of(words_of(inner))
    lines = page.settled(page.lay(tree, indent + len(begin), indent + page.BEHIND_SIGN, 2 + len(behind)), indent)
    laid = [" " * indent + begin + lines[0].lstrip(), *lines[1:]]
    return "\n".join(laid) + " }" + behind


def are_same(before, after):
    """Whether two texts have the same words in the same order."""
    return [it.text for it in words_of(before)] == [it.text for it in words_of(after)]


def laid_out(text):
    """The text of a source, with its clauses laid out, and why clauses stay as they were."""
    laid, at, reasons = "", 0, []
    for found in HEAD.finditer(text):
        end = end_of(text, found.end() - 1) if found.start() >= at else at
        stop = text.index("\n", end)
        whole, behind = text[found.start():stop], text[end + 1:stop]
        if found.start() < at or max(map(len, whole.split("\n"))) <= page.WIDTH or behind not in ENDS:
            continue
        try:
            new = laid_clause(found[2], text[found.end():end].strip(), behind, len(found[1]))
        except Unreadable as why:
            reasons.append(str(why))
            continue
        if not are_same(whole, new):
            reasons.append(f"the words of {whole.strip().split(chr(10))[0]} would not stay the same")
            continue
        laid += text[at:found.start()] + new
        at = stop
    return laid + text[at:], reasons
