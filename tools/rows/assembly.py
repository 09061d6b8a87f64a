"""Bytes of code from texts: the instructions of docs/BINARY.md by their names, each with its numbers behind it."""

RELATIONS = "eq ne lt_s lt_u gt_s gt_u le_s le_u ge_s ge_u"
OPERATIONS = "add sub mul div_s div_u rem_s rem_u and or xor shl"


def of_type(value_type, names):
    return [f"{value_type}.{name}" for name in names.split()]


# names whose opcodes follow each other, behind the first opcode: all of the profile
RANGES = {
    0x00: ["unreachable"],
    0x02: ["block", "loop", "if", "else"],
    0x0B: ["end", "br", "br_if", "br_table", "return", "call", "call_indirect"],
    0x1A: ["drop"],
    0x20: ["local.get", "local.set", "local.tee", "global.get"],
    0x29: ["i64.load"],
    0x31: ["i64.load8_u"],
    0x33: of_type("i64", "load16_u load32_s load32_u"),
    0x37: ["i64.store"],
    0x3C: of_type("i64", "store8 store16 store32"),
    0x41: ["i32.const", "i64.const"],
    0x45: of_type("i32", f"eqz {RELATIONS}"),
    0x50: of_type("i64", f"eqz {RELATIONS}"),
    0x6A: ["i32.add"],
    0x7C: of_type("i64", OPERATIONS),
    0x88: ["i64.shr_u"],
    0xA7: ["i32.wrap_i64"],
    0xAC: of_type("i64", "extend_i32_s extend_i32_u"),
}
OPCODES = {name: first + at for first, names in RANGES.items() for at, name in enumerate(names)}
BLOCKS = OPCODES["block"], OPCODES["loop"], OPCODES["if"]
TYPES = {"none": b"\x40", "i32": b"\x7F", "i64": b"\x7E"}
WITH_INDEX = "br", "br_if", "call", "local.get", "local.set", "local.tee", "global.get"


def unsigned(number):
    """LEB128 of an index, a count or a size."""
    low, rest = number & 0x7F, number >> 7
    return bytes([low | 0x80]) + unsigned(rest) if rest else bytes([low])


def signed(number):
    """LEB128 of a constant."""
    low, rest = number & 0x7F, number >> 7
    if rest == (-1 if low & 0x40 else 0):
        return bytes([low])
    return bytes([low | 0x80]) + signed(rest)


def constant(word, bits):
    """The number of a word, which may stand for its bits."""
    number = int(word, 0) % 2**bits
    return signed(number - 2**bits if number >> bits - 1 else number)


def behind(name, words):
    """What stands behind an opcode, from as many words as there are numbers. A `br_table` begins with how many labels it has beside the last."""
    if OPCODES[name] in BLOCKS:
        return TYPES[next(words)]
    if name.endswith(".const"):
        return constant(next(words), int(name[1:3]))
    if ".load" in name or ".store" in name:
        return b"\0\0"
    if name == "call_indirect":
        return unsigned(int(next(words))) + b"\0"
    if name == "br_table":
        count = int(next(words))
        return unsigned(count) + b"".join(unsigned(int(next(words))) for _ in range(count + 1))
    return unsigned(int(next(words))) if name in WITH_INDEX else b""


def assembled(text):
    """The bytes of code: names, each with its numbers."""
    words, code = iter(text.split()), b""
    for name in words:
        code += bytes([OPCODES[name]]) + behind(name, words)
    return code


def sized(content):
    """Bytes behind their number."""
    return unsigned(len(content)) + content


def functions(*codes):
    """The code section of functions without locals. The code of each has its end."""
    return b"\x0A" + sized(unsigned(len(codes)) + b"".join(sized(b"\0" + code) for code in codes))
