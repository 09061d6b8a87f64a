"""Rows of code over m2run, worked out by hand: what it prints and how it ends, and which code or which modules are refused.

What `machine/` and `faults/`, which others made, have of an instruction is not asked again.
"""
import os

from .assembly import OPCODES, assembled, functions
from .asking import M2RUN, Row, called, expect, expect_answer, written
from .machine import FILES, refusal_of

REDUCTIONS = "60"
END = " end"

# A module with `put` as function 0 and `stop` as function 1, both of type 1, from a number of 64 bits to nothing; `run` as function 2,
# of type 0, whose code is put between; function 3, of type 2, which adds two numbers of 64 bits; and function 4, of type 3, from a number
# of 32 bits to one, which calls itself with one less down to 0 and gives 7. A table of four slots has the functions 3 and 4 in its first
# two; a memory of one page has `ab` in its last two bytes.
FRONT = (
    b"\0asm\x01\0\0\0\x01\x13\x04\x60\0\0\x60\x01\x7E\0\x60\x02\x7E\x7E\x01\x7E\x60\x01\x7F\x01\x7F"
    b"\x02\x18\x02\x04host\x03put\0\x01\x04host\x04stop\0\x01\x03\x04\x03\0\x02\x03\x04\x04\x01\x70\0\x04\x05\x03\x01\0\x01"
    b"\x07\x07\x01\x03run\0\x02\x09\x08\x01\0\x41\0\x0B\x02\x03\x04"
)
SUM = "local.get 0 local.get 1 i64.add end"
SEVEN = "local.get 0 i32.eqz if i32 i32.const 7 else local.get 0 i32.const -1 i32.add call 4 end end"
DATA = b"\x0B\x0A\x01\0\x41\xFE\xFF\x03\x0B\x02ab"

# code of `run`, with the bytes that it prints before it ends, in hexadecimal, or trap
CODES = {
    "stop 256": ("i64.const 256 call 1", "trap"),
    "a function of another type in a slot": ("i32.const 0 i32.const 0 call_indirect 3 drop", "trap"),
    "a slot without a function": ("i32.const 0 i32.const 2 call_indirect 3 drop", "trap"),
    "a branch over two blocks, its operand and one below": (
        "i64.const 65 block i64 i64.const 1 block none i64.const 2 i64.const 1 br 1 end unreachable end i64.add call 0", "42"
    ),
    "a branch out of the function, and an operand": ("i64.const 65 i64.const 66 call 0 br 0", "42"),
    "a return from a loop in a block, and an operand": ("block none i64.const 1 loop none return end unreachable end", ""),
}
# what a table of two labels and one for all other numbers goes to, by the number
LABELS = "block none block none block none i32.const {} br_table 2 0 1 2 end i64.const 65 call 0 end i64.const 66 call 0 end i64.const 67 call 0"
BY_NUMBER = {"0": "414243", "1": "4243", "2": "43", "0xFFFFFFFF": "43"}
# what is loaded from a place, or stored at one by 0x1122334455667788 of which the last byte of the memory is printed then
LOAD = "i32.const {} {} call 0"
LOADS = """
65535 i64.load8_u 62
65536 i64.load8_u trap
65534 i64.load16_u 61
65535 i64.load16_u trap
"""
STORE = "i32.const {} i64.const 0x1122334455667788 {} i32.const 65535 i64.load8_u call 0"
STORES = """
65535 i64.store8 88
65536 i64.store8 trap
65534 i64.store16 77
65535 i64.store16 trap
65532 i64.store32 55
"""
# an operation and what it gives; 1 is printed if it does
GIVEN = "i64.const {} i64.const {} i64.{} i64.const {} i64.eq i64.extend_i32_u call 0"
OPERATIONS = """
0xFFFFFFFFFFFFFFFE add 3 1
0x7FFFFFFFFFFFFFFF add 1 0x8000000000000000
0x8000000000000000 mul 3 0x8000000000000000
0xFFFFFFFFFFFFFFFE mul 3 0xFFFFFFFFFFFFFFFA
0x8000000000000000 div_s 0xFFFFFFFFFFFFFFFF trap
0xFFFFFFFFFFFFFFFE div_u 3 0x5555555555555554
0x8000000000000000 div_u 0xFFFFFFFFFFFFFFFE 0
65 div_u 0 trap
0xFFFFFFFFFFFFFFFE rem_s 3 0xFFFFFFFFFFFFFFFE
65 rem_s 0xFFFFFFFFFFFFFFFE 1
0x8000000000000000 rem_s 3 0xFFFFFFFFFFFFFFFE
65 rem_s 0 trap
0xFFFFFFFFFFFFFFFE rem_u 3 2
0x8000000000000000 rem_u 65 8
0x7FFFFFFFFFFFFFFF and 0x80000001 0x80000001
0x8000000000000000 or 65 0x8000000000000041
0xFFFFFFFFFFFFFFFE xor 0x7FFFFFFF 0xFFFFFFFF80000001
0xFFFFFFFFFFFFFFFE shr_u 1 0x7FFFFFFFFFFFFFFF
0x8000000000000000 shr_u 65 0x4000000000000000
65 shr_u 64 65
"""
# a relation, and whether it holds of all bits and of the lower halves
HOLDS = "i64.const {0} i64.const {1} i64.{2} i64.extend_i32_u call 0 i64.const {0} i32.wrap_i64 i64.const {1} i32.wrap_i64 i32.{2} i64.extend_i32_u call 0"
RELATIONS = """
0x100000000 eq 0 00 01
65 eq 65 01 01
0x100000000 ne 0 01 00
65 ne 65 00 00
0xFFFFFFFFFFFFFFFE lt_u 1 00 00
0x100000000 lt_u 1 00 01
1 lt_u 0x80000000 01 01
65 lt_u 65 00 00
0xFFFFFFFFFFFFFFFE gt_s 1 00 00
0x80000000 gt_s 1 01 00
65 gt_s 65 00 00
0xFFFFFFFFFFFFFFFE le_s 1 01 01
0x80000000 le_s 1 00 01
65 le_s 65 01 01
0xFFFFFFFFFFFFFFFE ge_s 1 00 00
0x80000000 ge_s 1 01 00
65 ge_s 65 01 01
"""

HEADER = b"\0asm\x01\0\0\0"
# the header, one type of no operands and no results, and one function of it
BEFORE_CODE = HEADER + b"\x01\x04\x01\x60\0\0\x03\x02\x01\0"
# A module link whose `run` does nothing, and whose global, a constant, is exported as `tab.M` and as `tab.N`.
LINK = (
    BEFORE_CODE + b"\x06\x06\x01\x7F\0\x41\0\x0B\x07\x17\x03\x05tab.M\x03\0\x05tab.N\x03\0\x03run\0\0" + functions(assembled("end"))
)
IMPORTS_GLOBAL = HEADER + b"\x01\x04\x01\x60\0\0\x02\x0E\x01\x04link\x05tab.M\0\0"
IMPORTS_RUN = HEADER + b"\x02\x0D\x01\x04link\x03run\x03\x7F\0"
INVALID = BEFORE_CODE + functions(assembled("i32.const 0 end"))
UNLINKED = (3, b"", b"link: refusal 83\n")
# the modules M and N behind link, and what comes of them
BEHIND_LINK = {
    "two modules without sections": (HEADER, HEADER, (0, b"")),
    "an import of link's global as a function": (IMPORTS_GLOBAL, HEADER, UNLINKED),
    "an import of link's run as a global": (IMPORTS_RUN, HEADER, UNLINKED),
    "a last module that is not valid": (HEADER, INVALID, (3, b"", b"N: refusal 82\n")),
}
# which modules are there, and which is the first that is not
MISSING = [(["M", "N"], "link"), (["link", "N"], "M"), (["link", "M"], "N"), (["link"], "M")]

# the bytes of the function's code, with the refusal of the module
REFUSED = {
    "an end for the block alone": ("02 40 0B", "80"),
    "nothing behind the opcode of a block": ("02", "80"),
    "a second else": ("04 40 05 05 0B 0B", "81"),
    "an else in a block in an if": ("04 40 02 40 05 0B 0B 0B", "81"),
    "a loop of type 00": ("03 00 0B 0B", "81"),
    "a load with a hint": ("29 03 00 0B", "80"),
    "a store with an offset": ("37 00 01 0B", "80"),
    "an end that is a table's last label": ("0E 01 00 0B", "80"),
    "a longer number than is needed": ("10 80 00 0B", "80"),
}
# the same of code by its names
JUDGED = {
    "any operands behind a branch": ("br 0 i32.add drop end", "ok"),
    "an operand of the other type behind a branch": ("br 0 i64.const 1 i32.add drop end", "82"),
}
# blocks nest so deep, and no deeper
DEEPEST = 4096
NESTED = ["block none", "loop none", "i32.const 1 if none else"]


def ask_code(text, expected, folder):
    """`run` with this code prints what is expected and comes to its end, or it traps."""
    code = functions(*(assembled(it) for it in (text + END, SUM, SEVEN)))
    written(folder, {"link.wasm": FRONT + code + DATA})
    answer = (1, b"", b"trap\n") if expected == "trap" else (0, bytes.fromhex(expected))
    expect_answer(M2RUN, ["--steps", REDUCTIONS, "."], folder, *answer)


def ask_behind_link(first, second, answer, folder):
    """What comes of two modules behind link."""
    written(folder, {"link.wasm": LINK, "M.wasm": first, "N.wasm": second})
    expect_answer(M2RUN, ["."], folder, *answer)


def ask_missing(there, missing, folder):
    """Nothing is executed, and the first module that is not there is said."""
    written(folder, {f"{name}.wasm": LINK if name == "link" else HEADER for name in there})
    came = called(M2RUN, ["."], folder)
    said = f"m2run: .: cannot read {missing}.wasm: ".encode()
    expect("the status, the output and the sentence", (3, b"", said), (came.status, came.out, came.err[:len(said)]))


def refusal_of_code(code, folder):
    return refusal_of(BEFORE_CODE + functions(code), folder)


def ask_refusal(code, expected, folder):
    """The refusal of a module with one function of this code."""
    expect("the refusal", expected, refusal_of_code(code, folder))


def ask_opcode(opcode, folder):
    """Exactly another opcode than those of the profile is refused with 81, whether an end stands behind it or what a block has."""
    refusals = {refusal_of_code(bytes([opcode, *rest]), folder) for rest in (b"\x0B", b"\x40\x0B\x0B")}
    is_of_profile = opcode in OPCODES.values()
    expect("81 alone", not is_of_profile, refusals == {"81"})


def code_texts():
    """Each code with its name and what is expected of it."""
    for name, (text, expected) in CODES.items():
        yield name, text, expected
    for number, expected in BY_NUMBER.items():
        yield f"a table of labels by {number}", LABELS.format(number), expected
    for form, lines in ((LOAD, LOADS), (STORE, STORES)):
        for place, name, expected in map(str.split, lines.split("\n")[1:-1]):
            yield f"{name} at {place}", form.format(place, name), expected
    for left, name, right, gives in map(str.split, OPERATIONS.split("\n")[1:-1]):
        is_trap = gives == "trap"
        yield f"{left} {name} {right}", GIVEN.format(left, right, name, 0 if is_trap else gives), gives if is_trap else "01"
    for left, name, right, whole, half in map(str.split, RELATIONS.split("\n")[1:-1]):
        yield f"{left} {name} {right}", HOLDS.format(left, right, name), whole + half


def refused_codes():
    """Each code in bytes, with its name and its refusal."""
    for name, (digits, expected) in REFUSED.items():
        yield name, bytes.fromhex(digits), expected
    for name, (text, expected) in JUDGED.items():
        yield name, assembled(text), expected
    for beginning in NESTED:
        for count, expected in ((DEEPEST, "ok"), (DEEPEST + 1, "81")):
            yield f"{beginning}, {count} deep", assembled(beginning) * count + assembled("end") * (count + 1), expected


def code_rows():
    for name, text, expected in code_texts():
        yield Row(name, lambda folder, it=(text, expected): ask_code(*it, folder))
    for name, it in BEHIND_LINK.items():
        yield Row(name, lambda folder, it=it: ask_behind_link(*it, folder))
    for there, missing in MISSING:
        yield Row(f"{missing} is not there, but {' and '.join(there)}", lambda folder, it=(there, missing): ask_missing(*it, folder))
    for name, code, expected in refused_codes():
        yield Row(name, lambda folder, it=(code, expected): ask_refusal(*it, folder))
    for opcode in range(256):
        # the others are in files; `else` is read in an `if` alone
        if opcode != OPCODES["else"] and not os.path.exists(f"{FILES}/opcode-{opcode:02X}.wasm"):
            yield Row(f"opcode {opcode:02X}", lambda folder, opcode=opcode: ask_opcode(opcode, folder))
