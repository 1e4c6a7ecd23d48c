#!/usr/bin/env python3
"""Calls functions over values through conformance, 100,000 times each, with new objects after 1,000 calls, and prints calls a second.

usage: bench/calls.py CONFORMANCE (the built program of crates/conformance; it needs GNU time at /usr/bin/time)
"""

import os
import struct
import tempfile

from measure import measure, program_argument

CALLS = 100_000
SIZES = (10, 100, 1_000)
TURNS = 3


def word(number):
    """The XDR of a number of 32 bits."""
    return struct.pack(">I", number)


def u32(number):
    """The XDR of a U32 as a value."""
    return word(3) + word(number)


def value(name, size):
    """The XDR of the value on which a function is called: a map or vec of so many U32s, so many bytes, or a number."""
    if name.startswith("map"):
        return word(17) + word(1) + word(size) + b"".join(u32(i) + u32(i) for i in range(size))
    if name.startswith("vec"):
        return word(16) + word(1) + word(size) + b"".join(u32(i) for i in range(size))
    if name.startswith("bytes"):
        return word(13) + word(size) + bytes(size + -size % 4)
    return word(5) + struct.pack(">Q", 2**63)


def main():
    program = program_argument(__doc__)
    print("| function | size | calls a second |")
    print("|---|--:|--:|")
    with tempfile.TemporaryDirectory() as folder:
        path = os.path.join(folder, "value")
        for name in ("map_put", "map_get", "vec_push_back", "bytes_append", "obj_to_u64"):
            for size in SIZES if name != "obj_to_u64" else (1,):
                with open(path, "wb") as file:
                    file.write(value(name, size))
                seconds = min(measure([program, "bench", "calls", name, path])[0] for _ in range(TURNS))
                print(f"| `{name}` | {size:,} | {CALLS / seconds:,.0f} |")


if __name__ == "__main__":
    main()
