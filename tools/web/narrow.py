"""A module with 64-bit addresses gets a table of 32-bit numbers, and a 32-bit memory by binaryen's `wasm-opt`.

The linker counts the slots of a table by 64-bit numbers where addresses have 64 bits. Node 20 and older binaryen take only tables
of 32-bit numbers. So the table loses its mark, its offsets become i32, and each indirect call wraps its number first.
"""
import subprocess

HEADER_SIZE = 8
TABLES, ELEMENTS, CODE = 4, 9, 10
HAS_MAXIMUM, IS_WIDE = 1, 4
I32_CONST, I64_CONST, WRAP = 0x41, 0x42, 0xA7
CALL_INDIRECT, BRANCH_TABLE, SELECT_TYPED, F32_CONST, F64_CONST, PREFIXED = 0x11, 0x0E, 0x1C, 0x43, 0x44, 0xFC
BLOCKS = range(0x02, 0x05)
LOADS_AND_STORES = range(0x28, 0x3F)
# unreachable, nop, else, end, return, drop, select, and all arithmetic
WITHOUT_NUMBERS = {0x00, 0x01, 0x05, 0x0B, 0x0F, 0x1A, 0x1B, *range(0x45, 0xC5)}
# br, br_if, call, locals and globals, memory.size and memory.grow, constants, ref.null and ref.func
WITH_ONE_NUMBER = {0x0C, 0x0D, 0x10, *range(0x20, 0x25), 0x3F, 0x40, I32_CONST, I64_CONST, 0xD0, 0xD2}
# saturating conversions have no number, memory.init and memory.copy two, and so on
NUMBERS_OF_PREFIXED = {**{number: 0 for number in range(8)}, 8: 2, 9: 1, 10: 2, 11: 1}
# what the module may use, for wasm-opt
FEATURES = "memory64 bulk-memory sign-ext nontrapping-float-to-int mutable-globals multivalue extended-const".split()


class Unreadable(Exception):
    """A module that is not of the form that the linker writes."""


def unsigned(number):
    low, rest = number & 127, number >> 7
    return bytes([low | 128]) + unsigned(rest) if rest else bytes([low])


class Reader:
    """Bytes of a module, and a place in them."""

    def __init__(self, data, at=0):
        self.data, self.at = data, at

    def byte(self):
        self.at += 1
        return self.data[self.at - 1]

    def number(self):
        """An unsigned number."""
        value, shift = 0, 0
        while (byte := self.byte()) >= 128:
            value, shift = value | (byte & 127) << shift, shift + 7
        return value | byte << shift

    def skip(self, count=1):
        """Passes over numbers."""
        for _ in range(count):
            while self.byte() >= 128:
                pass

    def take(self, size):
        self.at += size
        return self.data[self.at - size:self.at]


def skip_operands(code, opcode):
    """Passes over what stands behind an opcode."""
    if opcode in WITHOUT_NUMBERS:
        return
    if opcode in WITH_ONE_NUMBER or opcode in BLOCKS:
        code.skip()
    elif opcode in LOADS_AND_STORES or opcode == CALL_INDIRECT:
        code.skip(2)
    elif opcode == BRANCH_TABLE:
        code.skip(code.number() + 1)
    elif opcode == SELECT_TYPED:
        code.skip(code.number())
    elif opcode in (F32_CONST, F64_CONST):
        code.take(4 if opcode == F32_CONST else 8)
    elif opcode == PREFIXED and (kind := code.number()) in NUMBERS_OF_PREFIXED:
        code.skip(NUMBERS_OF_PREFIXED[kind])
    else:
        raise Unreadable(f"opcode {opcode:#x} at {code.at:#x}")


def with_wraps(body):
    """The body of a function, with each indirect call behind a wrap of its number."""
    code, made, copied = Reader(body), bytearray(), 0
    for _ in range(code.number()):
        code.skip(2)
    while code.at < len(body):
        start = code.at
        opcode = code.byte()
        if opcode == CALL_INDIRECT:
            made += body[copied:start] + bytes([WRAP])
            copied = start
        skip_operands(code, opcode)
    return bytes(made) + body[copied:]


def narrow_tables(content):
    """The section of tables, without the mark of 64-bit numbers."""
    section, made = Reader(content), bytearray()
    count = section.number()
    for _ in range(count):
        kind, flags = section.byte(), section.byte()
        start = section.at
        section.skip(2 if flags & HAS_MAXIMUM else 1)
        made += bytes([kind, flags & ~IS_WIDE]) + content[start:section.at]
    return unsigned(count) + bytes(made)


def narrow_elements(content):
    """The section of elements, whose one offset becomes an i32."""
    section = Reader(content)
    count = section.number()
    if count == 0:
        return content
    head = section.take(2)
    if count != 1 or head != bytes([0, I64_CONST]):
        raise Unreadable("elements that the linker does not write")
    return unsigned(count) + bytes([0, I32_CONST]) + content[section.at:]


def narrow_code(content):
    section, made = Reader(content), bytearray()
    count = section.number()
    for _ in range(count):
        body = with_wraps(section.take(section.number()))
        made += unsigned(len(body)) + body
    return unsigned(count) + bytes(made)


SECTIONS = {TABLES: narrow_tables, ELEMENTS: narrow_elements, CODE: narrow_code}


def with_narrow_table(data):
    """The bytes of a module, with a table of 32-bit numbers."""
    module, made = Reader(data, HEADER_SIZE), bytearray(data[:HEADER_SIZE])
    while module.at < len(data):
        number = module.byte()
        content = module.take(module.number())
        content = SECTIONS.get(number, bytes)(content)
        made += bytes([number]) + unsigned(len(content)) + content
    return bytes(made)


def write_narrow_table(linked, wide):
    """Makes a module with a table of 32-bit numbers of what the linker wrote."""
    with open(linked, "rb") as file, open(wide, "wb") as made:
        made.write(with_narrow_table(file.read()))


def narrow_memory(wide, narrow):
    """Makes a module with a 32-bit memory of one with a 64-bit memory."""
    features = [f"--enable-{it}" for it in FEATURES]
    subprocess.run(["wasm-opt", *features, "--memory64-lowering", "-O2", wide, "-o", narrow], check=True)
