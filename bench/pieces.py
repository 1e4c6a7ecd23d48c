#!/usr/bin/env python3
"""Reads sets that `gen` makes in pieces and whole: `apply` reads its set through a window, and `show` holds the file's bytes and
reads them through a cursor. Four bytes stand behind each set, so that it is read to its end, refused, and not applied.

Prints the processor's instructions of reading one transaction, as the difference of two sets; then the peak memory for sets of
three sizes: read in pieces, read whole, and applied without the four bytes.

usage: bench/pieces.py PROGRAM (the built program of crates/soroban_cmd; it needs valgrind, and GNU time at /usr/bin/time)
"""

import os
import tempfile

from measure import instructions, measure, program_argument
from shares import made

FEW, MANY = 1_000, 10_000
SIZES = [10_000, 40_000, 100_000]
# The status of a refused file.
REFUSED = 1


def commands(program, folder, count):
    """Makes a set of so many transactions, and one with four bytes behind it. Returns its size in bytes, and three commands: one
    applies it, and two refuse the other set, which they read in pieces and whole."""
    apply = made(program, folder, count)
    at = apply.index("--set") + 1
    longer = os.path.join(folder, "longer")
    with open(apply[at], "rb") as file, open(longer, "wb") as other:
        size = other.write(file.read())
        other.write(bytes(4))
    in_pieces = [*apply[:at], longer, *apply[at + 1 :]]
    return size, apply, in_pieces, [program, "show", "--kind", "set", "--file", longer]


def print_instructions(program, folder):
    """Prints a row for each way to read."""
    print("| instructions of the processor | a transaction |")
    print("|---|--:|")
    counts = []
    for count in (FEW, MANY):
        *_, in_pieces, whole = commands(program, folder, count)
        counts.append([instructions(command, status=REFUSED) for command in (in_pieces, whole)])
    for name, few, many in zip(("in pieces", "whole"), *counts):
        print(f"| {name} | {(many - few) / (MANY - FEW):,.0f} |")


def print_memory(program, folder):
    """Prints a row for each size."""
    print("| transactions, MiB | the set's file | read in pieces | read whole | applied |")
    print("|---|--:|--:|--:|--:|")
    for count in SIZES:
        size, apply, in_pieces, whole = commands(program, folder, count)
        peaks = [measure(in_pieces, REFUSED)[1], measure(whole, REFUSED)[1], measure(apply)[1]]
        print(f"| {count:,} | {size / 2**20:.1f} | " + " | ".join(f"{peak:.1f}" for peak in peaks) + " |", flush=True)


def main():
    program = program_argument(__doc__)
    with tempfile.TemporaryDirectory() as folder:
        print_instructions(program, folder)
        print()
        print_memory(program, folder)


if __name__ == "__main__":
    main()
