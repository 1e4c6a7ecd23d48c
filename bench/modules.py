#!/usr/bin/env python3
"""Validates modules that are expensive to validate, at three sizes each, and prints seconds, peak memory and ns a byte.

At each size the module has about that many bytes, so time that is linear in the module shows as a constant number of
nanoseconds a byte. Exports are compared with each other, which takes O(n log n).

usage: bench/modules.py SOROBAN (the built program of crates/soroban_cmd)
"""

import os
import tempfile

from measure import measure, program_argument

I64 = b"\x7e"
SIZES = [128 * 1024, 512 * 1024, 2048 * 1024]


def leb(number):
    """A number in unsigned LEB128."""
    out = bytearray()
    while number >= 0x80:
        out.append(number & 0x7F | 0x80)
        number >>= 7
    return bytes([*out, number])


def vec(items):
    """A vector of encoded items."""
    return leb(len(items)) + b"".join(items)


def sized(data):
    return leb(len(data)) + data


def module(types, functions, exports=(), table=False):
    """A module of these encoded types, functions (the index of the type, and the body) and exports."""
    sections = [(1, vec(types)), (3, vec([leb(index) for index, _ in functions]))]
    if table:
        sections.append((4, vec([b"\x70\x00\x00"])))
    if exports:
        sections.append((7, vec(exports)))
    sections.append((10, vec([sized(body) for _, body in functions])))
    return b"\x00asm\x01\x00\x00\x00" + b"".join(bytes([number]) + sized(data) for number, data in sections)


NOTHING = b"\x60\x00\x00"


def many_indirect_calls(size):
    """Behind `unreachable`, calls of a type with many parameters: a quarter of the bytes are parameters."""
    wide = b"\x60" + vec([I64] * (size // 4)) + b"\x00"
    calls = b"\x11\x01\x00" * (size // 4)
    return module([NOTHING, wide], [(0, b"\x00\x00" + calls + b"\x0b")], table=True)


def many_exports(size):
    """One function under many names, which begin alike."""
    exports = [sized(b"export%08x" % number) + b"\x00\x00" for number in range(size // 17)]
    return module([NOTHING], [(0, b"\x00\x0b")], exports)


def many_locals(size):
    """Functions with 4,096 locals each, in 7 bytes."""
    function = (0, b"\x01\x80\x20\x7e\x0b")
    return module([NOTHING], [function] * (size // 7))


def main():
    program = program_argument(__doc__)
    print(f"{'module':20} {'bytes':>10} {'seconds':>8} {'MiB':>6} {'ns a byte':>10}")
    with tempfile.TemporaryDirectory() as folder:
        path = os.path.join(folder, "module.wasm")
        for make in (many_indirect_calls, many_exports, many_locals):
            for size in SIZES:
                data = make(size)
                with open(path, "wb") as file:
                    file.write(data)
                seconds, peak = measure([program, "vet", "--module", path])
                name = make.__name__.replace("_", " ")
                print(f"{name:20} {len(data):10,} {seconds:8.2f} {peak:6.0f} {seconds * 1e9 / len(data):10,.0f}", flush=True)


if __name__ == "__main__":
    main()
