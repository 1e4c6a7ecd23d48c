#!/usr/bin/env python3
"""Writes crates/conformance/data/operations.txt: calls of a module, with what wabt's wasm-interp says of them.

usage: tools/run_vectors.py > crates/conformance/data/operations.txt (it needs wat2wasm and wasm-interp of wabt)
"""
import os
import re
import subprocess
import sys
import tempfile

TRAPS = [
    ("integer divide by zero", "arithmetic"),
    ("integer overflow", "arithmetic"),
    ("out of bounds memory access", "bounds"),
    ("undefined table index", "bounds"),
    ("uninitialized table element", "empty"),
    ("indirect call signature mismatch", "type"),
    ("unreachable executed", "unreachable"),
]
EDGES = {
    32: [0, 1, 0xFFFFFFFF, 0x80000000, 0x7FFFFFFF, 0x12345678],
    64: [0, 1, 2**64 - 1, 2**63, 2**63 - 1, 0x123456789ABCDEF0],
}
functions, rows = [], []


def function(name, body, extra=""):
    functions.append(f'(func ${name} (export "{name}") (param i64 i64) (result i64) {extra} {body})')


def operand(width, index):
    get = f"(local.get {index})"
    return get if width == 64 else f"(i32.wrap_i64 {get})"


def widened(width, body):
    return body if width == 64 else f"(i64.extend_i32_u {body})"


def numeric(width):
    arithmetic = ["add", "sub", "mul", "div_s", "div_u", "rem_s", "rem_u", "and", "or", "xor"]
    shifts = ["shl", "shr_s", "shr_u", "rotl", "rotr"]
    compared = ["eq", "ne", "lt_s", "lt_u", "gt_s", "gt_u", "le_s", "le_u", "ge_s", "ge_u"]
    zero, one, minus, least, greatest, other = EDGES[width]
    pairs = [(one, zero), (least, minus), (greatest, one), (minus, other)]
    for name in arithmetic + shifts + compared:
        full = f"i{width}.{name}"
        body = f"({full} {operand(width, 0)} {operand(width, 1)})"
        function(full, widened(width if name not in compared else 32, body))
        if name in shifts:
            rows.extend((full, value, distance) for value, distance in ((least + 6, 0), (least + 6, 1), (other, width - 1), (least + 6, width), (other, width + 3)))
        else:
            rows.extend((full, a, b) for a, b in pairs)
    for name in ("clz", "ctz", "popcnt", "eqz"):
        full = f"i{width}.{name}"
        function(full, widened(width if name != "eqz" else 32, f"({full} {operand(width, 0)})"))
        rows.extend((full, a, 0) for a in EDGES[width][:1] + EDGES[width][2:])


def conversions():
    edges = [0x7F, 0x8080, 0x7FFF, 0x17FFFFFFF, 2**64 - 1]
    for name, source, target in [
        ("i32.wrap_i64", 64, 32), ("i64.extend_i32_s", 32, 64), ("i64.extend_i32_u", 32, 64), ("i32.extend8_s", 32, 32),
        ("i32.extend16_s", 32, 32), ("i64.extend8_s", 64, 64), ("i64.extend16_s", 64, 64), ("i64.extend32_s", 64, 64),
    ]:
        function(name, widened(target, f"({name} {operand(source, 0)})"))
        rows.extend((name, a, 0) for a in edges)


def memory():
    for name in ["i32.load", "i64.load"] + [f"i{w}.load{n}_{s}" for w in (32, 64) for n in (8, 16, 32) for s in "su" if n < w]:
        width = int(name[1:3])
        size = int((re.search(r"load(\d+)", name) or re.match(r"i(\d+)", name)).group(1)) // 8
        function(name, widened(width, f"({name} offset=3 {operand(32, 0)})"))
        last = 65536 - 3 - size
        rows.extend((name, place, 0) for place in (0, 5, last, last + 1))
    for name in ["i32.store", "i64.store", "i32.store8", "i32.store16", "i64.store8", "i64.store16", "i64.store32"]:
        width = int(name[1:3])
        size = int((re.search(r"store(\d+)", name) or re.match(r"i(\d+)", name)).group(1)) // 8
        function(name, f"(i64.store (i32.const 65527) (i64.const 0)) (i64.store (i32.const 65528) (i64.const 0)) ({name} offset=1 {operand(32, 0)} {operand(width, 1)}) (i64.load (i32.const 65528))")
        rows.extend((name, place, 0x8182838485868788) for place in (65527, 65535 - size, 65536 - size))


def control():
    x, y = "(local.get 0)", "(local.get 1)"
    narrow = operand(32, 0)
    function("br_table", f"(block (block (block (br_table 0 1 2 1 {narrow})) (return (i64.const 10))) (return (i64.const 11))) (i64.const 12)")
    rows.extend(("br_table", n, 0) for n in (0, 1, 2, 3, 4, 0xFFFFFFFF))
    function("br_table.value", f"(block (result i64) (drop (block (result i64) (br_table 0 1 (i64.add {y} (i64.const 5)) {narrow}))) (i64.const 100))")
    rows.extend(("br_table.value", n, 7) for n in (0, 1, 2))
    function("br", f"(block (result i64) (i64.const 1) (i64.const 2) (br 0 {x}) (unreachable))")
    rows.append(("br", 9, 0))
    function("br_if", f"(block (result i64) (i64.const 3) (br_if 0 {x} {operand(32, 1)}) (i64.add))")
    rows.extend([("br_if", 9, 0), ("br_if", 9, 1), ("br_if", 9, 2**31)])
    function("if", f"(if (result i64) {narrow} (then {y}) (else (i64.const 3)))")
    rows.extend([("if", 0, 5), ("if", 1, 5), ("if", 2**32, 5)])
    function("select", f"(select {x} {y} (i32.wrap_i64 {y}))")
    rows.extend([("select", 4, 0), ("select", 4, 1), ("select", 4, 2**32)])
    function("loop", "(loop $l (local.set 2 (i64.add (local.get 2) (local.get 0))) (br_if $l (i32.wrap_i64 (local.tee 1 (i64.sub (local.get 1) (i64.const 1)))))) (local.get 2)", "(local i64)")
    rows.extend([("loop", 3, 5), ("loop", 2**63, 2)])
    function("fibonacci", f"(if (result i64) (i64.lt_u {x} (i64.const 2)) (then {x}) (else (i64.add (call $fibonacci (i64.sub {x} (i64.const 1)) {y}) (call $fibonacci (i64.sub {x} (i64.const 2)) {y}))))")
    rows.extend([("fibonacci", 0, 0), ("fibonacci", 10, 0)])
    function("call_indirect", f"(call_indirect (param i64 i64) (result i64) {x} {y} {operand(32, 1)})")
    rows.extend(("call_indirect", 50, n) for n in (0, 1, 2, 3, 4, 5, 0xFFFFFFFF))
    function("global", f"(global.set 0 {x}) (i64.sub (global.get 0) (global.get 1))")
    rows.append(("global", 50, 0))
    function("local", f"(local.set 0 {y}) (local.set 2 (local.get 0)) (i64.add (local.tee 0 (i64.const 7)) (i64.sub (local.get 0) (local.get 2)))", "(local i64 i32)")
    rows.append(("local", 50, 9))
    function("return", f"(i64.const 1) (loop (br_if 0 (i32.const 0)) (return {x})) (drop) (i64.const 2)")
    rows.append(("return", 50, 0))
    function("unreachable", "(nop) (unreachable)")
    rows.append(("unreachable", 50, 0))
    function("memory.size", "(i64.extend_i32_u (memory.size))")
    rows.append(("memory.size", 0, 0))


def text():
    bytes_ = "".join(f"\\{n:02x}" for n in (0x81, 0x02, 0x7F, 0x90, 0xFF, 0x00, 0x80, 0xA5, 0x5A, 0x11, 0xC3, 0xFE, 0x01, 0x00, 0x77, 0x88))
    return "\n".join([
        "(module", "(memory 1 2)", f'(data (i32.const 1) "{bytes_}")', "(global (mut i64) (i64.const 3))", "(global i64 (i64.const 4))",
        "(table 5 funcref)", "(elem (i32.const 0) $i64.add $i64.sub $narrow)", "(func $narrow (param i64) (result i64) (local.get 0))", *functions,
    ])


def assembled(source):
    with tempfile.TemporaryDirectory() as folder:
        name = os.path.join(folder, "a")
        open(name + ".wat", "w").write(source)
        subprocess.run(["wat2wasm", name + ".wat", "-o", name + ".wasm"], check=True)
        return open(name + ".wasm", "rb").read()


def answers():
    calls = [f'(func (export "{i:05}") (result i64) (call ${n} (i64.const {a}) (i64.const {b})))' for i, (n, a, b) in enumerate(rows)]
    with tempfile.TemporaryDirectory() as folder:
        name = os.path.join(folder, "a.wasm")
        source = re.sub(r' \(export "[^"]*"\)', "", text())
        open(name, "wb").write(assembled(source + "\n" + "\n".join(calls) + ")"))
        lines = subprocess.run(["wasm-interp", name, "--run-all-exports"], stdout=subprocess.PIPE, check=True).stdout.decode().splitlines()
    assert len(lines) == len(rows), lines[-1]
    return [answer(line) for line in lines]


def answer(line):
    said = line.split("=> ", 1)[1]
    if said.startswith("i64:"):
        return f"{int(said[4:]):x}"
    return next(word for message, word in TRAPS if message in said)


def outcome(word):
    """The outcome of a call, as the table writes it."""
    return f"trap {word}" if word in {trap for _, trap in TRAPS} else f"done {word}"


def version():
    """The version of wabt."""
    return subprocess.run(["wasm-interp", "--version"], stdout=subprocess.PIPE, check=True).stdout.decode().strip()


def main():
    ends = []
    for part in (lambda: numeric(32), lambda: numeric(64), conversions, memory, control):
        part()
        ends.append(len(rows))
    lines = [f"call {{OPERATIONS}} 10000 {n} {a:x} {b:x} => {outcome(r)}" for (n, a, b), r in zip(rows, answers())]
    print("# Calls of a module that has a function for each operation, and their results as another engine computes them.")
    print(f"# tools/run_vectors.py wrote this table with wat2wasm and wasm-interp of wabt {version()}.\n")
    print(f"let OPERATIONS {assembled(text() + ')').hex()}")
    titles = ("operations of 32 bits", "operations of 64 bits", "conversions", "loads and stores", "control")
    for title, start, end in zip(titles, [0, *ends], ends):
        print(f"\n## {title}")
        print("\n".join(lines[start:end]))
    print(len(lines), file=sys.stderr)


if __name__ == "__main__":
    main()
