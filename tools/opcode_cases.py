#!/usr/bin/env python3
"""Writes crates/conformance/data/opcodes.txt: for each byte, whether it is an instruction of this host.

The table below is written from the binary format of WebAssembly Core 1.0, section 5.4, and the five sign extensions of
section 5.4.7 of Core 2.0. An instruction of this host has its operand and result types, so its module is valid only if
exactly these types are right. The instructions on floats, and all other bytes, make a module malformed.

usage: tools/opcode_cases.py FILE [MODULES] (crates/conformance/data/opcodes.txt; MODULES gets a line `HEX OUTCOME` a module)
"""

import sys

I32, I64 = 0x7F, 0x7E
TYPES = {"i": I32, "l": I64}

# Instructions of this host: name, operand types, result types (i: i32, l: i64), and the bytes behind the opcode.
INSTRUCTIONS = {}
# Other opcodes of the standard: name, and the bytes behind the opcode.
OTHERS = {0x05: ("else, which is no instruction", ""), 0x0B: ("end, which is no instruction", "")}


def row(opcode, name, takes="", gives="", behind=""):
    """Adds an instruction of this host."""
    INSTRUCTIONS[opcode] = (name, takes, gives, behind)


def rows(opcode, names, takes, gives, behind=""):
    """Adds instructions of this host with consecutive opcodes and the same types."""
    for offset, name in enumerate(names):
        row(opcode + offset, name, takes, gives, behind)


def others(opcode, names, behind=""):
    """Adds other opcodes, which are consecutive."""
    for offset, name in enumerate(names):
        OTHERS[opcode + offset] = (name, behind)


# 5.4.1: control instructions
row(0x00, "unreachable")
row(0x01, "nop")
row(0x02, "block", behind="400b")
row(0x03, "loop", behind="400b")
row(0x04, "if", "i", "", "40050b")
row(0x0C, "br", behind="00")
row(0x0D, "br_if", "i", "", "00")
row(0x0E, "br_table", "i", "", "010000")
row(0x0F, "return")
row(0x10, "call", behind="00")
row(0x11, "call_indirect", "i", "", "0000")
# 5.4.2: parametric instructions
row(0x1A, "drop", "l")
row(0x1B, "select", "lli", "l")
# 5.4.3: variable instructions. Local 0 is the first parameter, and global 0 is an i32.
row(0x20, "local.get", "l", "ll", "00")
row(0x21, "local.set", "l", "", "00")
row(0x22, "local.tee", "l", "l", "00")
row(0x23, "global.get", "", "i", "00")
row(0x24, "global.set", "i", "", "00")
# 5.4.4: memory instructions
rows(0x28, ["i32.load"], "i", "i", "0000")
rows(0x29, ["i64.load"], "i", "l", "0000")
others(0x2A, ["f32.load", "f64.load"], "0000")
rows(0x2C, ["i32.load8_s", "i32.load8_u", "i32.load16_s", "i32.load16_u"], "i", "i", "0000")
rows(0x30, ["i64.load8_s", "i64.load8_u", "i64.load16_s", "i64.load16_u", "i64.load32_s", "i64.load32_u"], "i", "l", "0000")
rows(0x36, ["i32.store"], "ii", "", "0000")
rows(0x37, ["i64.store"], "il", "", "0000")
others(0x38, ["f32.store", "f64.store"], "0000")
rows(0x3A, ["i32.store8", "i32.store16"], "ii", "", "0000")
rows(0x3C, ["i64.store8", "i64.store16", "i64.store32"], "il", "", "0000")
row(0x3F, "memory.size", "", "i", "00")
row(0x40, "memory.grow", "i", "i", "00")
# 5.4.5: numeric instructions
COMPARISONS = ["eq", "ne", "lt_s", "lt_u", "gt_s", "gt_u", "le_s", "le_u", "ge_s", "ge_u"]
FLOAT_COMPARISONS = ["eq", "ne", "lt", "gt", "le", "ge"]
UNARY = ["clz", "ctz", "popcnt"]
BINARY = ["add", "sub", "mul", "div_s", "div_u", "rem_s", "rem_u", "and", "or", "xor", "shl", "shr_s", "shr_u", "rotl", "rotr"]
FLOAT_UNARY = ["abs", "neg", "ceil", "floor", "trunc", "nearest", "sqrt"]
FLOAT_BINARY = ["add", "sub", "mul", "div", "min", "max", "copysign"]


def of(value_type, names):
    """The names of a type's instructions."""
    return [f"{value_type}.{name}" for name in names]


row(0x41, "i32.const", "", "i", "00")
row(0x42, "i64.const", "", "l", "00")
others(0x43, ["f32.const"], "00" * 4)
others(0x44, ["f64.const"], "00" * 8)
row(0x45, "i32.eqz", "i", "i")
rows(0x46, of("i32", COMPARISONS), "ii", "i")
row(0x50, "i64.eqz", "l", "i")
rows(0x51, of("i64", COMPARISONS), "ll", "i")
others(0x5B, of("f32", FLOAT_COMPARISONS) + of("f64", FLOAT_COMPARISONS))
rows(0x67, of("i32", UNARY), "i", "i")
rows(0x6A, of("i32", BINARY), "ii", "i")
rows(0x79, of("i64", UNARY), "l", "l")
rows(0x7C, of("i64", BINARY), "ll", "l")
others(0x8B, of("f32", FLOAT_UNARY + FLOAT_BINARY) + of("f64", FLOAT_UNARY + FLOAT_BINARY))
row(0xA7, "i32.wrap_i64", "l", "i")
others(0xA8, of("i32", ["trunc_f32_s", "trunc_f32_u", "trunc_f64_s", "trunc_f64_u"]))
row(0xAC, "i64.extend_i32_s", "i", "l")
row(0xAD, "i64.extend_i32_u", "i", "l")
others(0xAE, of("i64", ["trunc_f32_s", "trunc_f32_u", "trunc_f64_s", "trunc_f64_u"]))
others(0xB2, of("f32", ["convert_i32_s", "convert_i32_u", "convert_i64_s", "convert_i64_u", "demote_f64"]))
others(0xB7, of("f64", ["convert_i32_s", "convert_i32_u", "convert_i64_s", "convert_i64_u", "promote_f32"]))
others(0xBC, ["i32.reinterpret_f32", "i64.reinterpret_f64", "f32.reinterpret_i32", "f64.reinterpret_i64"])
row(0xC0, "i32.extend8_s", "i", "i")
row(0xC1, "i32.extend16_s", "i", "i")
rows(0xC2, ["i64.extend8_s", "i64.extend16_s", "i64.extend32_s"], "l", "l")


def vector(items):
    """A vector of fewer than 128 items."""
    return bytes([len(items)]) + b"".join(items)


def section(number, items):
    """A section of fewer than 128 bytes."""
    content = vector(items)
    return bytes([number, len(content)]) + content


def func_type(takes, gives):
    """A function type."""
    return b"\x60" + bytes([len(takes)] + [TYPES[t] for t in takes] + [len(gives)] + [TYPES[t] for t in gives])


def module(takes, body):
    """A module with a table, a memory, a global, and two functions. The first has no parameters and results. The second
    has these parameters and this body."""
    code = [b"\x02\x00\x0b", bytes([len(body) + 2, 0]) + body + b"\x0b"]
    return (
        b"\0asm\x01\0\0\0"
        + section(1, [func_type("", ""), func_type(takes, "")])
        + section(3, [b"\0", b"\x01"])
        + section(4, [b"\x70\0\0"])
        + section(5, [b"\0\0"])
        + section(6, [bytes([I32, 1, 0x41, 0, 0x0B])])
        + section(10, code)
    )


def leaves(gives):
    """Instructions that take values of these types, each by the setting of a local of its type or a global."""
    return b"".join(b"\x24\0" if t == "i" else b"\x42\0\x51\x24\0" for t in reversed(gives))


def instruction(opcode, takes, gives, behind):
    """A module whose second function pushes the operands, executes the instruction, and takes the results by their types."""
    pushes = b"".join(bytes([0x20, index]) for index in range(len(takes)))
    return module(takes, pushes + bytes([opcode]) + bytes.fromhex(behind) + leaves(gives))


def outcomes():
    """The modules of all bytes, each with its name and its outcome."""
    for opcode in range(256):
        if opcode in INSTRUCTIONS:
            name, takes, gives, behind = INSTRUCTIONS[opcode]
            yield opcode, name, instruction(opcode, takes, gives, behind), "valid"
        else:
            name, behind = OTHERS.get(opcode, ("no instruction", ""))
            yield opcode, name, module("", b"\0" + bytes([opcode]) + bytes.fromhex(behind)), "not a module"


HEAD = """# For each byte, a module whose second function has it as the opcode of an instruction.
# tools/opcode_cases.py wrote this table from WebAssembly Core 1.0, section 5.4, and the sign extensions of Core 2.0.
# An instruction stands among operands and results of exactly its types. V8 11.3 (Node.js 20.20.2) agrees on the valid ones.

"""


def main():
    cases = list(outcomes())
    with open(sys.argv[1], "w") as table:
        table.write(HEAD)
        for opcode, name, code, outcome in cases:
            table.write(f"check {code.hex()} => {outcome} # {opcode:02x}: {name}\n")
    if len(sys.argv) > 2:
        with open(sys.argv[2], "w") as modules:
            for _, _, code, outcome in cases:
                modules.write(f"{code.hex()} {outcome}\n")


if __name__ == "__main__":
    main()
