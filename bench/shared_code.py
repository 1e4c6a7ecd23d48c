#!/usr/bin/env python3
"""Applies sets whose transactions call one contract, and prints the processor's instructions of a call for codes of several sizes.

The clusters of a stage share the codes that its transactions only read: such a code is loaded once. In the second column the last
transaction of the set declares the code read-write, so each call loads it anew. A call's instructions are the difference of sets
of 100 and 1,000 transactions, or of 20 and 100 where each call loads the code. The called function does nothing, so a call costs
what surrounds it, and the comparison of the code's bytes.

usage: bench/shared_code.py PROGRAM (the built program of crates/soroban_cmd; it needs valgrind)
"""

import hashlib
import tempfile

from host_calls import CONTRACT, MEMORY_LIMIT, MOST, constant, record, u32
from ledgers import header, words
from measure import apply_command, instructions, program_argument
from modules import I64, leb, sized, vec

SIZES = (0, 10_000, 50_000)
SHARED, ALONE = (100, 1_000), (20, 100)

# A function of a compiler's make: local variables, arithmetic, a loop and a branch, in some sixty bytes.
OTHER = sized(
    b"\x01\x03\x7e"
    + b"".join(b"\x20\x00" + constant(1_000 + index) + b"\x7c\x21\x01\x20\x01" + constant(index) + b"\x85\x21\x02" for index in range(2))
    + b"\x02\x40\x03\x40\x20\x00\x50\x0d\x01\x20\x00\x42\x01\x7d\x21\x00\x20\x02\x20\x01\x7e\x21\x02\x0c\x00\x0b\x0b"
    + b"\x20\x02\x0b"
)
EMPTY = sized(b"\x00" + constant(2) + b"\x0b")


def code_of(size):
    """A module of about so many bytes, whose export `f` takes a value and returns void."""
    bodies = [EMPTY] + [OTHER] * (size // (len(OTHER) + 1))
    sections = [
        (1, vec([b"\x60" + vec([I64]) + vec([I64])])),
        (3, vec([leb(0)] * len(bodies))),
        (7, vec([sized(b"f") + b"\x00" + leb(0)])),
        (10, vec(bodies)),
    ]
    return b"\x00asm\x01\x00\x00\x00" + b"".join(leb(number) + sized(data) for number, data in sections)


def contents(code, calls, shared):
    """A ledger with a contract of this code, and a set of so many calls of it in one cluster."""
    code_key = words(7) + hashlib.sha256(code).digest()
    instance_key = words(6) + CONTRACT + words(20, 1)
    entries = [
        record(instance_key, words(6, 0) + instance_key[4:] + words(19, 0) + code_key[4:] + words(0)),
        record(code_key, words(7, 0) + code_key[4:] + words(len(code)) + code + bytes(-len(code) % 4)),
    ]
    invoke = words(24, 0) + CONTRACT + words(1) + b"f\0\0\0" + words(1) + u32(0) + words(0)
    read = words(2) + instance_key + code_key + words(0)
    written = words(1) + instance_key + words(1) + code_key
    transactions = b""
    for number in range(calls):
        footprint = read if shared or number + 1 < calls else written
        declared = words(1, 0) + footprint + words(MOST, MOST, MOST, 0, 0)
        transactions += words(2) + words(0) + bytes(32) + words(100, 0, number + 1, 0, 0, 1, 0) + invoke + declared + words(0)
    applied = words(1) + bytes(32) + words(1, 1, 0, 1, 1, calls) + transactions
    return {
        "set": applied, "ledger": header(MEMORY_LIMIT) + words(len(entries)) + b"".join(entries), "verdicts": words(0)
    }


def instructions_of_call(program, folder, code, shared):
    """The instructions of a call: those of the larger set less those of the smaller one."""
    few, many = SHARED if shared else ALONE
    counts = [instructions(apply_command(program, folder, contents(code, calls, shared))) for calls in (few, many)]
    return (counts[1] - counts[0]) / (many - few)


def main():
    program = program_argument(__doc__)
    print("| bytes of code | instructions of a call | if each call loads the code |")
    print("|--:|--:|--:|")
    with tempfile.TemporaryDirectory() as folder:
        for size in SIZES:
            code = code_of(size)
            shared, alone = (instructions_of_call(program, folder, code, how) for how in (True, False))
            print(f"| {len(code):,} | {shared:,.0f} | {alone:,.0f} |", flush=True)


if __name__ == "__main__":
    main()
