#!/usr/bin/env python3
"""Writes crates/conformance/data/modules.txt: small modules, and what an independent validator says of them.

Each module is assembled by wabt's wat2wasm, and wasm-validate says whether it is valid, with the features of
WebAssembly 1.0 and the sign extensions alone. Of those that are not valid, the group (ill typed, or no module at all)
is judged by hand from the standard and written here. Where the validator differs, the row is said, no file is written
and the status is 1.

usage: tools/wasm_vectors.py FILE (crates/conformance/data/modules.txt; it needs wat2wasm and wasm-validate of wabt)
"""

import collections
import os
import subprocess
import sys
import tempfile

VALID, ILL, NO_MODULE = "valid", "ill typed", "not a module"
OFF = ["mutable-globals", "saturating-float-to-int", "simd", "multi-value", "bulk-memory", "reference-types"]

COMPARISONS = ["eq", "ne", "lt_s", "lt_u", "gt_s", "gt_u", "le_s", "le_u", "ge_s", "ge_u"]
ARITHMETIC = [
    "add", "sub", "mul", "div_s", "div_u", "rem_s", "rem_u", "and", "or", "xor",
    "shl", "shr_s", "shr_u", "rotl", "rotr",
]
LOADS = [
    "i32.load", "i64.load", "i32.load8_s", "i32.load8_u", "i32.load16_s", "i32.load16_u",
    "i64.load8_s", "i64.load8_u", "i64.load16_s", "i64.load16_u", "i64.load32_s", "i64.load32_u",
]
STORES = ["i32.store", "i64.store", "i32.store8", "i32.store16", "i64.store8", "i64.store16", "i64.store32"]


def valid(name, module):
    """A row of a module that is valid, as text or as bytes."""
    return name, module, VALID


def ill(name, module):
    """A row of a module that is ill typed, as text or as bytes."""
    return name, module, ILL


def no_module(name, data):
    """A row of bytes that are no module."""
    return name, data, NO_MODULE


def function(body, signature="", others=""):
    """The text of a module of one function behind other definitions."""
    return f"(module {others} (func {signature} {body}))"


def section(number, contents):
    """The bytes of a section."""
    return bytes([number, len(contents)]) + contents


FRONT = b"\x00asm\x01\x00\x00\x00"
# One type without parameters and results, one function of it, and one memory of a page.
TYPES = section(1, b"\x01\x60\x00\x00")
FUNCTIONS = section(3, b"\x01\x00")
MEMORY = section(5, b"\x01\x00\x01")


def coded(body, page=b"", types=TYPES):
    """The bytes of a module of one function with this body, its locals and its end included."""
    return FRONT + types + FUNCTIONS + page + section(10, bytes([1, len(body)]) + body)


def numeric(width):
    """Rows of the numeric instructions of one width."""
    kind = f"i{width}"
    rows = [valid(f"{kind}.eqz", function(f"local.get 0 {kind}.eqz", f"(param {kind}) (result i32)"))]
    for name in ("clz", "ctz", "popcnt"):
        rows.append(valid(f"{kind}.{name}", function(f"local.get 0 {kind}.{name}", f"(param {kind}) (result {kind})")))
    for group, names in (("comparisons", COMPARISONS), ("arithmetic", ARITHMETIC)):
        body = " ".join(f"local.get 0 local.get 1 {kind}.{name} drop" for name in names)
        rows.append(valid(f"{kind} {group}", function(body, f"(param {kind} {kind})")))
    return [*rows, valid(f"{kind}.const", function(f"{kind}.const -1", f"(result {kind})"))]


def conversions():
    """Rows of conversions and constants, and of operands that numeric instructions do not take."""
    widths = "local.get 0 i32.wrap_i64 drop local.get 1 i64.extend_i32_s drop local.get 1 i64.extend_i32_u drop"
    extensions = (
        "local.get 1 i32.extend8_s drop local.get 1 i32.extend16_s drop "
        "local.get 0 i64.extend8_s drop local.get 0 i64.extend16_s drop local.get 0 i64.extend32_s drop"
    )
    constants = (
        "i32.const -2147483648 drop i32.const 2147483647 drop i64.const -9223372036854775808 drop "
        "i64.const 9223372036854775807 drop i32.const 64 drop i32.const -65 drop"
    )
    return [
        valid("conversions", function(widths, "(param i64 i32)")),
        valid("sign extensions", function(extensions, "(param i64 i32)")),
        valid("constants", function(constants)),
        ill("i64.add of an i32", function("local.get 0 i32.const 1 i64.add", "(param i64) (result i64)")),
        ill("i32.eqz of an i64", function("local.get 0 i32.eqz", "(param i64) (result i32)")),
        ill("comparison gives i32", function("local.get 0 local.get 0 i64.lt_u", "(param i64) (result i64)")),
        ill("clz of an i64", function("local.get 0 i32.clz", "(param i64) (result i32)")),
        ill("wrap of an i32", function("i32.const 1 i32.wrap_i64", "(result i32)")),
        ill("extension of an i32 to i64 in place", function("i32.const 1 i64.extend8_s", "(result i64)")),
        ill("no operand", function("i32.add", "(result i32)")),
    ]


def parametric():
    """Rows of drop, select and the instructions of locals."""
    selects = "i64.const 1 i64.const 2 i32.const 0 select drop i32.const 1 i32.const 2 i32.const 3 select drop"
    accesses = "i64.const 1 local.set 1 i64.const 2 local.tee 2 drop local.get 1 drop"
    return [
        valid("drop and select", function(selects)),
        ill("select of two types", function("i64.const 1 i32.const 2 i32.const 0 select drop")),
        ill("select by an i64", function("i64.const 1 i64.const 2 i64.const 0 select drop")),
        ill("drop of nothing", function("drop")),
        valid("locals", function(accesses, "(param i32) (local i64 i64)")),
        ill("local out of range", function("local.get 1 drop", "(param i32)")),
        ill("local of another type", function("i32.const 1 local.set 0", "(param i64)")),
        ill("tee of another type", function("i32.const 1 local.tee 0 drop", "(param i64)")),
    ]


def variables():
    """Rows of globals."""
    both = "(global $c i64 (i64.const 3)) (global $v (mut i32) (i32.const 4))"
    return [
        valid("globals", function("global.get $c drop i32.const 1 global.set $v", "", both)),
        ill("set of a constant global", function("i64.const 1 global.set $c", "", both)),
        ill("global out of range", function("global.get 2 drop", "", both)),
        ill("global of another type", function("i64.const 1 global.set $v", "", both)),
        ill("global begins otherwise", "(module (global i64 (i32.const 0)))"),
        ill("global begins with another's value", "(module (global i64 (i64.const 0)) (global i64 (global.get 0)))"),
        ill("global begins with a sum", "(module (global i32 (i32.add (i32.const 1) (i32.const 2))))"),
        ill("global begins with nothing", "(module (global i32))"),
    ]


def memory():
    """Rows of memories and their instructions."""
    page = "(memory 1)"
    loads = " ".join(f"i32.const 0 {name} drop" for name in LOADS)
    stores = " ".join(f"i32.const 0 {name[:3]}.const 1 {name}" for name in STORES)
    placed = "i32.const 0 i64.load offset=4294967295 align=1 drop i32.const 0 i32.load16_u offset=7 align=2 drop"
    load_at_eight = coded(b"\x00\x41\x00\x28\x03\x00\x1a\x0b", MEMORY)
    store_at_two = coded(b"\x00\x41\x00\x41\x00\x3a\x01\x00\x0b", MEMORY)
    return [
        valid("loads", function(loads, "", page)),
        valid("stores", function(stores, "", page)),
        valid("offsets and alignments", function(placed, "", page)),
        valid("memory.size and memory.grow", function("memory.size drop i32.const 1 memory.grow drop", "", page)),
        ill("load without a memory", function("i32.const 0 i32.load drop")),
        ill("store without a memory", function("i32.const 0 i64.const 0 i64.store32")),
        ill("memory.size without a memory", function("memory.size drop")),
        ill("memory.grow by an i64", function("i64.const 1 memory.grow drop", "", page)),
        ill("load at an i64", function("i64.const 0 i32.load drop", "", page)),
        ill("store of another type", function("i32.const 0 i32.const 0 i64.store", "", page)),
        ill("two memories", "(module (memory 1) (memory 1))"),
        ill("a load's alignment above the natural one", load_at_eight),
        ill("a store's alignment above the natural one", store_at_two),
        ill("most below least pages", "(module (memory 2 1))"),
        ill("too many pages at most", "(module (memory 0 65537))"),
        valid("pages at most", "(module (memory 64 65536))"),
    ]


def control():
    """Rows of control instructions that are valid."""
    blocks = (
        "block end block (result i64) i64.const 1 end drop loop end loop (result i32) i32.const 1 end drop nop"
    )
    conditions = (
        "i32.const 1 if end i32.const 1 if (result i64) i64.const 1 else i64.const 2 end drop "
        "i32.const 0 if nop else nop end"
    )
    branches = (
        "block (result i64) i64.const 1 br 0 end drop block i32.const 0 br_if 0 end "
        "loop i32.const 0 br_if 0 end block (result i64) i64.const 1 i32.const 1 br_if 0 end drop"
    )
    tables = (
        "block block i32.const 1 br_table 0 1 0 end end "
        "block (result i64) i64.const 5 i32.const 0 br_table 0 0 end drop"
    )
    return [
        valid("blocks", function(blocks)),
        valid("if", function(conditions)),
        valid("branches", function(branches)),
        valid("br_table", function(tables)),
        valid("return and unreachable", function("block return end unreachable i32.add drop", "(param i64)")),
        valid("any operands behind a branch", function("block br 0 i64.add drop select drop end")),
        valid("branch to the function", function("i64.const 4 br 0", "(result i64)")),
    ]


def branches():
    """Rows of code behind a branch, and of branches to labels of another type."""
    conditional = "block (result i64) i32.const 1 i32.const 1 br_if 0 drop i64.const 1 end drop"
    table = "block (result i64) block i64.const 1 i32.const 0 br_table 0 1 end i64.const 1 end drop"
    return [
        ill("one type behind unreachable", function("unreachable i32.const 1 i64.add drop")),
        ill("too much behind unreachable", function("block unreachable i32.const 1 end")),
        ill("label out of range", function("br 1")),
        ill("branch without its value", function("block (result i64) br 0 end drop")),
        ill("branch with another type", function("block (result i64) i32.const 1 br 0 end drop")),
        ill("br_if with another type", function(conditional)),
        ill("br_table to labels of two types", function(table)),
        valid("a loop's label takes nothing", function("loop (result i64) br 0 end drop")),
        ill("a loop gives its result", function("loop (result i64) br 0 end i32.eqz drop")),
    ]


def ends():
    """Rows of blocks and functions that end with other operands than they should."""
    arms = "i32.const 1 if (result i32) i32.const 1 else i64.const 1 end drop"
    return [
        ill("operands left in a block", function("block i32.const 1 end")),
        ill("operand below the block", function("i32.const 1 block drop end")),
        ill("if without else and with a result", function("i32.const 1 if (result i32) i32.const 1 end drop")),
        ill("arms of two types", function(arms)),
        ill("if by an i64", function("i64.const 1 if end")),
        ill("function without its result", function("nop", "(result i64)")),
        ill("function with two values for one", function("i64.const 1 i64.const 2", "(result i64)")),
        ill("return of another type", function("i32.const 1 return", "(result i64)")),
    ]


def calls():
    """Rows of calls, of functions and through a table."""
    called = """(module (type $t (func (param i64 i32) (result i64))) (import "a" "b" (func $i (type $t)))
        (func $f (param i64 i32) (result i64) local.get 0 local.get 1 call $i)
        (func (drop (call $f (i64.const 1) (i32.const 2)))))"""
    turned = "(module (func $f (param i64 i32)) (func (call $f (i32.const 2) (i64.const 1))))"
    kind = "(type $t (func (param i64) (result i64)))"
    table = f"{kind} (table 2 funcref)"
    indirect = "i64.const 1 i32.const 0 call_indirect (type $t) drop"
    return [
        valid("calls", called),
        ill("call with the arguments turned", turned),
        ill("call out of range", function("call 1")),
        valid("call_indirect", function(indirect, "", table)),
        ill("call_indirect without a table", function(indirect, "", kind)),
        ill("call_indirect by an i64", function("i64.const 1 i64.const 0 call_indirect (type $t) drop", "", table)),
    ]


def segments():
    """Rows of tables and segments."""
    fitting = """(module (table 1 2 funcref) (memory 1) (func $f) (elem (i32.const 0) $f $f)
        (data (i32.const 3) "abc") (export "t" (table 0)) (export "m" (memory 0)) (export "f" (func $f)))"""
    at_a_variable = '(module (global (mut i32) (i32.const 0)) (memory 1) (data (global.get 0) "a"))'
    return [
        valid("segments", fitting),
        ill("segment of another type", '(module (memory 1) (data (i64.const 0) "a"))'),
        ill("segment without a memory", '(module (data (i32.const 0) "a"))'),
        ill("elements without a table", "(module (func $f) (elem (i32.const 0) $f))"),
        ill("element out of range", "(module (table 1 funcref) (elem (i32.const 0) 0))"),
        ill("segment at a global that may be set", at_a_variable),
        ill("two tables", "(module (table 1 funcref) (table 1 funcref))"),
        ill("most below least elements", "(module (table 2 1 funcref))"),
    ]


def exports():
    """Rows of exports and types."""
    three = '(module (func (export "a")) (func (export "b")) (global (export "g") i32 (i32.const 1)))'
    return [
        valid("exports", three),
        ill("two exports of one name", '(module (func (export "a") (export "a")))'),
        ill("export out of range", '(module (export "a" (func 0)))'),
        ill("two results", "(module (type (func (result i64 i64))))"),
        ill("a function of no type", coded(b"\x00\x0b", types=b"")),
        ill("an import of no type", FRONT + section(2, b"\x01\x01a\x01b\x00\x00")),
    ]


def changed(data, old, new):
    """The data with new bytes in place of old ones, which stand in it at one place."""
    assert data.count(old) == 1, (old, data.hex())
    return data.replace(old, new)


def changes():
    """Rows of a module with a change of one place, or cut."""
    base = assembled(
        '(module (memory 1) (func (export "f") (param i64) (result i64) local.get 0 i64.const 300 i64.add))'
    )
    front, rest = base[: len(FRONT)], base[len(FRONT) :]
    short = changed(base, b"\x0a\x0a\x01\x08\x00\x20", b"\x0a\x0a\x01\x07\x00\x20")
    unused = changed(base, MEMORY, section(5, b"\x01\x00\x81\x80\x80\x80\x10"))
    six = changed(base, MEMORY, section(5, b"\x01\x00\x81\x80\x80\x80\x80\x00"))
    five = changed(base, MEMORY, section(5, b"\x01\x00\x81\x80\x80\x80\x00"))
    return [
        no_module("another magic", changed(base, b"\x00asm", b"\x00asn")),
        no_module("version 2", changed(base, b"\x00asm\x01", b"\x00asm\x02")),
        no_module("cut in the last section", base[:-1]),
        no_module("a byte after the last section", base + b"\x00"),
        no_module("a float type", changed(base, b"\x60\x01\x7e\x01\x7e", b"\x60\x01\x7d\x01\x7e")),
        no_module("no such opcode", changed(base, b"\x7c\x0b", b"\xff\x0b")),
        no_module("a section of a higher number first", front + FUNCTIONS + rest),
        no_module("a section that is too long", changed(base, b"\x01\x06\x01\x60", b"\x01\x07\x01\x60")),
        no_module("a body that is too short", short),
        no_module("a name that is no UTF-8", changed(base, b"\x01\x66\x00\x00", b"\x01\xff\x00\x00")),
        no_module("an unused bit of a last byte", unused),
        no_module("six bytes of a number", six),
        valid("five bytes of a number", five),
        valid("a custom section", front + section(0, b"\x02ab\xff\xff") + rest),
        no_module("a custom section without its name", front + section(0, b"\x02a") + rest),
    ]


def spelled():
    """Rows of bytes that no change of that module makes."""
    endless = FRONT + b"\x01\xff\xff\xff\xff\x0f\x01\x60\x00\x00"
    sign = coded(b"\x00\x41\xff\xff\xff\xff\x4f\x0b", types=section(1, b"\x01\x60\x00\x01\x7f"))
    return [
        no_module("a section longer than the file", endless),
        no_module("a table behind a memory", FRONT + MEMORY + section(4, b"\x01\x70\x00\x00")),
        no_module("else without if", coded(b"\x00\x05\x0b")),
        no_module("bytes behind a body's end", coded(b"\x00\x0b\x01")),
        no_module("memory.size of memory 1", coded(b"\x00\x3f\x01\x1a\x0b", MEMORY)),
        no_module("unused bits of a sign", sign),
        no_module("a function without its body", FRONT + TYPES + FUNCTIONS),
    ]


def assembled(text):
    """The bytes of a module that is given as text, whether it is valid or not."""
    with tempfile.TemporaryDirectory() as folder:
        source, target = os.path.join(folder, "a.wat"), os.path.join(folder, "a.wasm")
        with open(source, "w", encoding="utf-8") as file:
            file.write(text)
        done = subprocess.run(["wat2wasm", "--no-check", source, "-o", target], stderr=subprocess.PIPE)
        if done.returncode != 0:
            sys.exit(f"wat2wasm refuses {text}\n{done.stderr.decode()}")
        with open(target, "rb") as file:
            return file.read()


def is_valid(data):
    """Whether wasm-validate takes the bytes."""
    with tempfile.TemporaryDirectory() as folder:
        name = os.path.join(folder, "a.wasm")
        with open(name, "wb") as file:
            file.write(data)
        command = ["wasm-validate", *(f"--disable-{feature}" for feature in OFF), name]
        done = subprocess.run(command, stdout=subprocess.DEVNULL, stderr=subprocess.PIPE)
    if done.returncode not in (0, 1):
        sys.exit(f"wasm-validate ended with {done.returncode} on {data.hex()}\n{done.stderr.decode()}")
    return done.returncode == 0


def version():
    """The version of wabt."""
    return subprocess.run(["wasm-validate", "--version"], stdout=subprocess.PIPE, check=True).stdout.decode().strip()


def table_of(rows):
    """The text of the table of these rows."""
    lines = [f"check {data.hex()} => {verdict} # {name}" for name, data, verdict in rows]
    return "\n".join([
        "# Small modules, each with what it is for, as another validator judges them. If one is not valid, whether it is ill",
        "# typed or no module was judged by hand from the standard.",
        f"# tools/wasm_vectors.py wrote this table with wat2wasm and wasm-validate of wabt {version()}.",
        "", *lines, "",
    ])


def main():
    if len(sys.argv) != 2:
        print(__doc__.strip().split("\n\n")[-1], file=sys.stderr)
        sys.exit(2)
    parts = [
        numeric(32), numeric(64), conversions(), parametric(), variables(), memory(), control(), branches(), ends(),
        calls(), segments(), exports(), changes(), spelled(),
    ]
    rows = [
        (name, module if isinstance(module, bytes) else assembled(module), verdict)
        for part in parts for name, module, verdict in part
    ]
    different = [row for row in rows if is_valid(row[1]) != (row[2] == VALID)]
    for name, data, verdict in different:
        said = "not valid" if verdict == VALID else "valid"
        print(f"DIFFERS: {name} is {verdict} here and {said} to wasm-validate: {data.hex()}", file=sys.stderr)
    if different:
        sys.exit(1)
    with open(sys.argv[1], "w", encoding="utf-8") as file:
        file.write(table_of(rows))
    counts = collections.Counter(verdict for _, _, verdict in rows)
    print(", ".join(f"{count} {verdict}" for verdict, count in counts.items()), file=sys.stderr)


if __name__ == "__main__":
    main()
