"""Lays out files: comments, and declarations with the lines that go on below them."""
from . import lines as page
from .trees import Bound, Group, Reader, Unreadable, tree_of
from .words import CLOSING, OPENING, SEPARATORS, depth_of, words_of

COMMENT = "--"
HEADING = "-- ----"
# lines that stay as they are
LEFT = {"use", "mod", "infix", "infixl", "infixr", "open", "unfolding", "ruleset"}
# words that open a block at the end of a line
BLOCKS = {"where", "do", "mutual"}
BAR = "|"
HEADS = {"module", "data", "record"}
MARKS = {"pattern", "unfoldable", "abbrev", "axiom", "pub"}
FUNCTIONS = {"pattern", "unfoldable", "abbrev"}


def indent_of(line):
    return len(line) - len(line.lstrip(" "))


def is_comment(line):
    return line.lstrip().startswith(COMMENT)


def is_long(line):
    return len(line) > page.WIDTH


def filled(words, begin):
    """Words in lines that all begin the same."""
    lines = []
    for it in words:
        if lines and len(lines[-1]) + 1 + len(it) <= page.WIDTH:
            lines[-1] += f" {it}"
        else:
            lines.append(f"{begin} {it}")
    return lines


def laid_comment(comment):
    """A run of comment lines: what a line has too much goes to the front of the next one."""
    laid, over = [], []
    for line in comment:
        begin = " " * indent_of(line) + COMMENT
        words = line.split()[1:]
        if line.lstrip() != COMMENT + " " * bool(words) + " ".join(words) or line.lstrip().startswith(HEADING):
            laid += filled(over, begin)
            over = []
        if not over and not is_long(line):
            laid.append(line)
            continue
        rows = filled(over + words, begin)
        laid, over = laid + rows[:1], [it for row in rows[1:] for it in row.split()[1:]]
    return laid + filled(over, " " * indent_of(comment[-1]) + COMMENT)


def laid_declaration(lines):
    """A declaration with the lines that go on below its first."""
    indent = indent_of(lines[0])
    words = words_of("\n".join(lines))
    texts = [it.text for it in words]
    unmarked = [it for it in texts if it not in MARKS]
    if unmarked[0] in LEFT or not any(map(is_long, lines)) or any(f" {COMMENT} " in it for it in lines):
        return lines
    if unmarked[0] in HEADS and unmarked[-1] == "where":
        return page.settled(page.lay_head(parts_of_head(words), indent), indent)
    return page.settled(laid_tree(tree_of(words), indent, texts[0] in FUNCTIONS), indent)


def laid_tree(tree, indent, is_function):
    """A signature, an equation, or a line of a block of actions."""
    if isinstance(tree, Bound) and tree.sign == ":":
        return page.lay_signature(tree, indent, is_function)
    if isinstance(tree, Bound) and tree.sign == "=":
        return page.lay_equation(tree, indent)
    return page.lay(tree, indent, indent + page.BEHIND_SIGN)


def parts_of_head(words):
    """The first words of a block's head, each argument, and what stands behind them."""
    reader, parts = Reader(words), [[]]
    while reader.peek() not in (":", "where"):
        start = reader.at
        part = reader.simple()
        if isinstance(part, Group):
            parts.append([])
        parts[-1] += reader.since(start)
    return [*parts, words[reader.at:]]


def runs_of(lines):
    """The lines in runs, each with its sort: comments, empty lines, and declarations."""
    runs, at = [], 0
    while at < len(lines):
        line, start = lines[at], at
        at += 1
        if not line.strip():
            runs.append((None, [line]))
        elif is_comment(line):
            while at < len(lines) and is_comment(lines[at]) and indent_of(lines[at]) == indent_of(line):
                at += 1
            runs.append((laid_comment, lines[start:at]))
        else:
            at = end_of_declaration(lines, start)
            runs.append((laid_declaration, lines[start:at]))
    return runs


def end_of_declaration(lines, start):
    """Where a declaration ends: before an empty line, a comment, or a line that is indented no more. A block is none."""
    indent, at, depth = indent_of(lines[start]), start + 1, depth_of(words_of(lines[start]))
    while at < len(lines) and lines[at].strip() and not is_comment(lines[at]):
        goes_on = depth > 0 or indent_of(lines[at]) > indent
        if not goes_on or lines[at - 1].split()[-1] in BLOCKS:
            break
        depth += depth_of(words_of(lines[at]))
        at += 1
    return at


def words_in(lines):
    """The words that lines have, and those that stand behind another without a blank.

    A bracket may stand with or without blanks inside, a separator before a closing one, and a bar before the first case, as
    `rt fmt` puts them.
    """
    if is_comment(lines[0]):
        return [it for line in lines for it in line.split()[1:]]
    words = words_of("\n".join(lines))
    told = []
    for before, it, behind in zip([None, *words], words, [*words[1:], None]):
        is_first = before is not None and before.text in OPENING
        is_last = behind is not None and behind.text in CLOSING
        if not (it.text in SEPARATORS and is_last) and not (it.text == BAR and is_first):
            told.append((it.text, it.is_glued and not is_first and it.text not in CLOSING))
    return told


def laid_run(layout, run):
    """A run of lines, laid out, and why it stays as it was, or None."""
    try:
        laid = layout(run)
    except Unreadable as why:
        return run, str(why)
    if words_in(laid) != words_in(run):
        return run, f"the words of {run[0].strip()} would not stay the same"
    return laid, None


def laid_out(text):
    """The text of a file, laid out, and why declarations stay as they were."""
    laid, reasons = [], []
    for layout, run in runs_of(text.split("\n")):
        new, why = laid_run(layout, run) if layout else (run, None)
        laid += new
        reasons += [why] if why else []
    return "\n".join(laid), reasons
