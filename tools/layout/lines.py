"""Lays out trees in lines.

A layout is a list of lines. The first goes on at a column, which is the width of what stands before it; the others begin
with their indentation. The tail is the room that the last line leaves for what follows: closing brackets, for the most part.
All lines of a declaration, or of a field, that go on below its first have one indentation, as `rt fmt` gives it.
"""
from .trees import Apply, Bound, Cases, Chain, Glued, Group, If, Lambda, Leaf, Let, Record
from .words import CLOSING, OPENING, SEPARATORS

WIDTH = 100
STEP = 2
BEHIND_SIGN = 4
# a chain of these operators that fills more lines gets a line for each operand
SPREAD = {"→", "×", "⊎", "||", "&&", "∣"}
FILLED_LINES = 2
# a function with fewer characters is an argument like others
SHORT_FUNCTION = 20
# chains whose last operand, in brackets, goes on with the same sequence
SEQUENCES = ({"∷", "++"}, {"&&"}, {"||"})
# behind these a function takes what stands before them, and its body begins a line
HANDING = {">>=", "▷"}


class Element:
    """A part of a chain or an application, with what stands before and behind it without a break."""

    def __init__(self, part, lead="", trail=""):
        self.part, self.lead, self.trail = part, lead, trail
        self.flat = f"{lead}{part.flat}{trail}"

    def lay(self, column, indent, tail):
        lines = lay(self.part, column + len(self.lead), indent, tail + len(self.trail))
        return joined(self.lead, lines, self.trail)


def cost(lines, column, tail):
    """First what goes past the width, then the number of lines."""
    ends = [len(it) for it in lines]
    ends[0] += column
    ends[-1] += tail
    return sum(max(0, it - WIDTH) for it in ends), len(lines)


def best(options, column, tail):
    """The first of the best layouts."""
    return min(options, key=lambda it: cost(it, column, tail))


def joined(before, lines, behind=""):
    """A layout with text on its first and last lines."""
    lines = [before + lines[0], *lines[1:]]
    lines[-1] += behind
    return lines


def begun(indent, lines):
    """A layout that begins a line."""
    return joined(" " * indent, lines)


def end_of(lines, column):
    return len(lines[-1]) + (column if len(lines) == 1 else 0)


def is_spacious(part):
    """Whether a part is brackets with blanks inside: it was broken, and its parts have a line each."""
    return isinstance(part, Group) and not part.words[1].is_glued


def is_block(part):
    """Whether a part is broken into lines of its own, between a line that it opens and one that closes it."""
    return isinstance(part, (Record, Cases)) or is_spacious(part) or (isinstance(part, Group) and len(part.parts) > 1)


def inner(part):
    """What stands in brackets alone, without blanks, or None."""
    is_alone = isinstance(part, Group) and len(part.parts) == 1 and not part.separators and not is_spacious(part)
    return part.parts[0] if is_alone else None


def is_binder(part):
    """Whether a part is names with their type in brackets: `(x y : T)`."""
    return isinstance(inner(part), Bound) and inner(part).sign == ":"


def is_open_ended(part):
    """Whether a part can end its line with an opening bracket or the head of a function, with the rest below."""
    if isinstance(part, Apply):
        return is_open_ended(part.parts[-1])
    return isinstance(part, (Lambda, Record)) or isinstance(inner(part), (Lambda, Record))


def begins_with_block(part):
    """Whether a part begins with a block, whose last bracket stands below the begin of the line that opens it."""
    if is_block(part):
        return True
    return isinstance(part, (Chain, Group)) and begins_with_block(part.parts[0])


def is_step(part):
    """Whether a part does something and hands what comes of it to a function."""
    if isinstance(part, Chain):
        return part.operators[-1] in HANDING and isinstance(part.parts[-1], Lambda)
    return isinstance(part, Apply) and isinstance(inner(part.parts[-1]) or part.parts[-1], Lambda) and is_next_step(part)


def is_next_step(part):
    """Whether the last argument, a function, is what comes next: it is the only function, and no short one."""
    functions = [it for it in part.parts if isinstance(inner(it) or it, Lambda)]
    return len(functions) == 1 and len(functions[0].flat) > SHORT_FUNCTION


def lay_body(part, indent, tail):
    """The body of a function below its head. If it is a step itself, its function has a body below too."""
    if is_step(part):
        return FORMS[type(part)](part, indent, indent, tail)
    return lay(part, indent, indent, tail)


def lay(part, column, indent, tail=0):
    """The best layout of a part."""
    if column + len(part.flat) + tail <= WIDTH and not is_spacious(part):
        return [part.flat]
    form = FORMS.get(type(part))
    return form(part, column, indent, tail) if form else [part.flat]


def fill(elements, column, indent, tail, is_spread=False):
    """As many elements on a line as fit. One that is broken has its lines for itself; if is_spread, all but binders have."""
    last, before, lines, is_broken = elements[-1], None, [], False
    for it in elements:
        rest = tail if it is last else 0
        if before is None:
            lines = it.lay(column, indent, rest)
            is_broken = is_closed_off(lines)
        elif may_follow(it, before, is_spread) and not is_broken and end_of(lines, column) + 1 + len(it.flat) + rest <= WIDTH:
            lines[-1] += f" {it.flat}"
        else:
            new = it.lay(indent, indent, rest)
            is_broken = is_closed_off(new)
            lines = lines + begun(indent, new)
        before = it
    return lines


def may_follow(element, before, is_spread):
    return not is_spread or (is_binder(element.part) and is_binder(before.part))


def is_closed_off(lines):
    """Whether nothing goes on behind the last line: it is of several, and no closing brace."""
    return len(lines) > 1 and not lines[-1].lstrip().startswith(("}", "]"))


def fill_open(elements, column, indent, tail, is_spread=False):
    """As fill; or else the last element begins on the line of the others, if it can end that line."""
    filled = fill(elements, column, indent, tail, is_spread)
    if len(elements) < 2 or is_spread or not is_open_ended(elements[-1].part):
        return filled
    lines = fill(elements[:-1], column, indent, 0)
    new = elements[-1].lay(end_of(lines, column) + 1, indent, tail)
    return best([filled, joined("", lines[:-1] + joined(lines[-1] + " ", new))], column, tail)


def lay_apply(part, column, indent, tail):
    """A function and its arguments: a last argument that is a function or a record ends the line."""
    elements = [Element(it) for it in part.parts]
    options = [fill(elements, column, indent, tail)]
    last = part.parts[-1]
    content = inner(last) or last
    if isinstance(content, Lambda) and is_next_step(part):
        opening, closing = ("(", ")") if inner(last) else ("", "")
        lines = fill([*elements[:-1], Element(content.head, opening)], column, indent, 0)
        body = lay_body(content.body, indent, tail + len(closing))
        return best([lines + begun(indent, joined("", body, closing)), *options], column, tail)
    if begins_with_block(last) or (isinstance(last, Group) and not any(isinstance(it, Group) for it in part.parts[:-1])):
        lines = fill(elements[:-1], column, indent, 0)
        new = lay(last, end_of(lines, column) + 1, indent, tail)
        options.append(lines[:-1] + joined(lines[-1] + " ", new))
    return best(options, column, tail)


def elements_of(chain):
    """The operands of a chain with their operators. A sequence that goes on in brackets is one, and binders stand alone."""
    elements = []
    for operator, it in zip(["", *chain.operators], chain.parts):
        lead = f"{operator} " if operator else ""
        if isinstance(it, Apply) and all(map(is_binder, it.parts)):
            elements += [Element(it.parts[0], lead), *map(Element, it.parts[1:])]
        else:
            elements.append(Element(it, lead))
    rest = inner(chain.parts[-1])
    if isinstance(rest, Chain) and any({chain.operators[-1], *rest.operators} <= it for it in SEQUENCES):
        further = elements_of(rest)
        further[0] = Element(further[0].part, f"{elements[-1].lead}({further[0].lead}", further[0].trail)
        further[-1] = Element(further[-1].part, further[-1].lead, f"{further[-1].trail})")
        elements[-1:] = further
    return elements


def lay_chain(part, column, indent, tail, may_spread=True):
    elements = elements_of(part)
    last = part.parts[-1]
    if part.operators[-1] in HANDING and isinstance(last, Lambda):
        head = Element(last.head, elements[-1].lead)
        lines = fill([*elements[:-1], head], column, indent, 0)
        return lines + begun(indent, lay_body(last.body, indent, tail))
    filled = fill_open(elements, column, indent, tail)
    if may_spread and part.operators[0] in SPREAD and len(filled) > FILLED_LINES:
        return fill(elements, column, indent, tail, True)
    return filled


def lay_lambda(part, column, indent, tail):
    head = f"{part.head.flat} "
    below = [part.head.flat, *begun(indent, lay_body(part.body, indent, tail))]
    if not begins_with_block(part.body):
        return below
    return best([below, joined(head, lay(part.body, column + len(head), indent, tail))], column, tail)


def lay_let(part, column, indent, tail):
    lines = joined("let ", lay(part.bound, column + len("let "), indent, len(" in")), " in")
    return lines + begun(indent, lay(part.body, indent, indent, tail))


def lay_if(part, column, indent, tail, is_further=False):
    """Each branch begins a line. Conditions that follow one another have a line each, with what is chosen."""
    further = inner(part.otherwise)
    opening, closing = ("else (", ")") if isinstance(further, If) else ("else ", "")
    if closing and not is_further and indent + len(f"else {part.otherwise.flat}") + tail <= WIDTH:
        opening, closing = "else ", ""
    chosen = f"if {part.condition.flat} then {part.chosen.flat}"
    if (closing or is_further) and column + len(chosen) <= WIDTH:
        lines = [chosen]
    else:
        lines = joined("if ", lay(part.condition, column + len("if "), indent))
        lines += begun(indent, joined("then ", lay(part.chosen, indent + len("then "), indent)))
    if closing:
        rest = lay_if(further, indent + len(opening), indent, tail + len(closing), True)
    else:
        rest = lay(part.otherwise, indent + len(opening), indent, tail)
    return lines + begun(indent, joined(opening, rest, closing))


def lay_cases(part, column, indent, tail):
    at = indent + STEP
    lines = [part.head.flat]
    for it in part.cases:
        lines += begun(at, joined("| ", lay(it, at + len("| "), at + BEHIND_SIGN)))
    return [*lines, " " * indent + "]"]


def lay_record(part, column, indent, tail):
    elements = [Element(it, "", ";") for it in part.fields]
    return [part.head.flat, *rows(elements, indent + STEP), " " * indent + "}"]


def are_below(lines, indent):
    """Whether no line but one of a closing bracket begins where the first does."""
    return all(it.startswith(" " * (indent + 1)) or it.lstrip()[0] in "}])" for it in lines[1:])


def lay_bound(part, column, indent, tail):
    """What is bound stands on a line of its own, if it needs no more lines there."""
    head = f"{part.left.flat} {part.sign}"
    below = [head, *begun(indent, lay(part.right, indent, indent, tail))]
    is_begun = begins_with_block(part.right)
    further = indent - BEHIND_SIGN if is_begun else indent
    beside = joined(f"{head} ", lay(part.right, column + len(head) + 1, further, tail))
    return best([below, beside] if not is_begun or are_below(beside, further) else [below], column, tail)


def rows(elements, indent):
    """Each element begins a line, and a block its first one."""
    further = {it: indent + (0 if is_block(it.part) else BEHIND_SIGN) for it in elements}
    return [line for it in elements for line in begun(indent, it.lay(indent, further[it], 0))]


def lay_group(part, column, indent, tail):
    """One part goes on in its brackets; several have a line each, and so have those of spacious brackets."""
    words = part.words
    if len(part.parts) > 1 or is_spacious(part):
        trails = [*part.separators, *part.separators[-1:]][:len(part.parts)] or [""]
        elements = [Element(it, "", trail) for it, trail in zip(part.parts, trails)]
        return [words[0].text, *rows(elements, indent + STEP), " " * indent + words[-1].text]
    return joined(words[0].text, lay(part.parts[0], column + 1, indent, tail + 1), words[-1].text)


def lay_glued(part, column, indent, tail):
    """The first part is broken, and the others follow without a blank."""
    behind = part.flat[len(part.parts[0].flat):]
    return joined("", lay(part.parts[0], column, indent, tail + len(behind)), behind)


FORMS = {
    Apply: lay_apply, Bound: lay_bound, Cases: lay_cases, Chain: lay_chain, Glued: lay_glued, Group: lay_group, If: lay_if,
    Lambda: lay_lambda, Let: lay_let, Record: lay_record,
}


def lay_equation(part, indent):
    """What is defined, and below it what it is. A record or cases may begin on the first line."""
    left = lay(part.left, indent, indent, len(" ="))
    at = indent + BEHIND_SIGN
    options = [joined("", left, " =") + begun(at, lay(part.right, at, at))]
    if begins_with_block(part.right):
        start = joined("", left, " = ")
        beside = start[:-1] + joined(start[-1], lay(part.right, end_of(start, indent), indent))
        options += [beside] if are_below(beside, indent) else []
    return best(options, indent, 0)


def lay_signature(part, indent, is_function):
    """A name and its type. The first arguments stand beside the name; is_function: all arguments fill their lines."""
    at = indent + BEHIND_SIGN
    head = joined("", lay(part.left, indent, at, len(" :")), " :")
    column = end_of(head, indent) + 1

    def laid(column):
        if isinstance(part.right, Chain) and column + len(part.right.flat) > WIDTH:
            return lay_chain(part.right, column, at, 0, not is_function)
        return lay(part.right, column, at)

    below = head + begun(at, laid(at))
    beside = head[:-1] + joined(f"{head[-1]} ", laid(column))
    if not isinstance(part.right, Chain) or column + len(elements_of(part.right)[0].flat) > WIDTH:
        return best([below, beside], indent, 0)
    return best([beside, below] if "→" in part.right.operators else [below, beside], indent, 0)


def lay_head(texts, indent):
    """The head of a block: words with their arguments, which fill lines."""
    return fill([Element(Leaf(it)) for it in texts], indent, indent + BEHIND_SIGN, 0)


def settled(lines, indent):
    """The indentation of `rt fmt`. A block stands in by a step; what goes on below a line has one indentation in its block."""
    laid, blocks = [" " * indent + lines[0].lstrip()], [indent]
    for line in lines[1:]:
        text, before = line.lstrip(), laid[-1]
        if text[0] in CLOSING:
            at = blocks.pop() - STEP
        elif before[-1] in OPENING:
            blocks.append(len(before) - len(before.lstrip()) + STEP)
            at = blocks[-1]
        elif before[-1] in SEPARATORS or text.startswith("| "):
            at = blocks[-1]
        elif text == "(":
            laid[-1] += " ("
            continue
        else:
            at = blocks[-1] + BEHIND_SIGN
        laid.append(" " * at + text)
    return laid
