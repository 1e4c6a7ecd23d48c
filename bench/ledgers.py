#!/usr/bin/env python3
"""Applies a set of one transaction to ledgers of 2,000, 20,000 and 200,000 entries, and prints a row for each:
entries, bytes, seconds and peak memory of the program, and seconds of sha256sum over the same file.

usage: bench/ledgers.py PROGRAM (crates/soroban_cmd/out/soroban_cmd; it needs GNU time at /usr/bin/time and sha256sum)
"""

import hashlib
import os
import struct
import tempfile

from measure import measure, measure_apply, program_argument

NETWORK = bytes([7]) * 32
# The terms of the kinds of cost, as in examples/ledger.hex: instructions (constant, linear), memory (constant, linear).
SETTINGS = [
    (1, 0, 0, 0), (0, 0, 16, 128), (0, 128, 0, 0), (0, 128, 0, 0), (10, 0, 0, 0), (5, 0, 0, 0),
    (0, 128, 0, 0), (0, 128, 0, 0), (100, 128, 0, 0), (1000, 128, 0, 128), (100, 0, 0, 0),
]


def words(*numbers):
    """Numbers of four bytes each."""
    return b"".join(struct.pack(">I", number) for number in numbers)


def header(memory_limit=41943040):
    """What stands before the entries in the file of a ledger whose transactions have this memory limit, in bytes."""
    fields = words(1) + NETWORK + words(100) + struct.pack(">Q", 1000) + words(16, 4096, 3110400)
    return fields + struct.pack(">Q", memory_limit) + b"".join(words(*row) for row in SETTINGS)


def key(number):
    """A contract's data entry at the symbol `ab`; contracts are numbered, so keys come in order."""
    return words(6, 1) + number.to_bytes(32, "big") + words(15, 2) + b"ab\0\0" + words(1)


def record(number):
    """A contract's data entry in the file of a ledger, its key's hash and how long it lives behind it."""
    name = key(number)
    entry = words(50, 6, 0) + name[4:] + words(3, number, 0)
    return entry + hashlib.sha256(name).digest() + words(200)


def ledger(count):
    """The file of a ledger of this many entries."""
    return header() + words(count) + b"".join(map(record, range(count)))


def extend(number):
    """A set of one transaction that lets an entry live for 500 ledgers more."""
    transaction = words(0) + bytes(32) + words(100, 0, 1, 0, 0, 1, 0, 25, 0, 500, 1, 0, 1)
    transaction += key(number) + words(0, 0, 0, 0, 0, 0)
    return words(1) + bytes(32) + words(1, 1, 0, 1, 1, 1, 2) + transaction + words(0)


def main():
    program = program_argument(__doc__)
    print("| entries | ledger file | seconds | peak memory | sha256sum |")
    print("|---|---|---|---|---|")
    with tempfile.TemporaryDirectory() as folder:
        for count in (2_000, 20_000, 200_000):
            contents = {"set": extend(count // 2), "ledger": ledger(count), "verdicts": words(0)}
            seconds, memory = measure_apply(program, folder, contents)
            other, _ = measure(["sha256sum", os.path.join(folder, "ledger")])
            size = len(contents["ledger"]) / 2**20
            print(f"| {count:,} | {size:.1f} MiB | {seconds:.3f} | {memory:.0f} MiB | {other:.3f} |")


if __name__ == "__main__":
    main()
