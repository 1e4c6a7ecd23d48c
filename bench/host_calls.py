#!/usr/bin/env python3
"""Applies a set of one transaction that calls a contract, whose function calls host functions in a loop. Prints host calls a
second of processor time, and the processor's instructions of a turn of the loop.

The time is that of the whole command, less that of the same command with a loop of 0, each the least of three runs. The
instructions are the difference of loops of 1,000 and 2,000, or 100 and 200. Both have the WebAssembly of the loop, 12 to 17
instructions for each turn. Rows with as many instructions for different sizes show that a host call does not search the
module's imports, copy its memory, or clone a value that it only reads.

usage: bench/host_calls.py PROGRAM (the built program of crates/soroban_cmd; it needs valgrind, and GNU time at /usr/bin/time)
"""

import hashlib
import os
import sys
import tempfile

from ledgers import header, words
from measure import apply_command, instructions, measure, processor_seconds, program_argument
from modules import I64, leb, sized, vec

TURNS = 1_000_000
RUNS = 3
MOST = 2**32 - 1
MEMORY_LIMIT = 2**40
UNTIL = 5000

CONTRACT = words(1) + bytes(31) + b"\x05"
VOID = words(1)
AB = words(15, 2) + b"ab\0\0"
AB_WORD = 38 << 14 | 39 << 8 | 14  # the symbol `ab` as a word
PERSISTENT, INSTANCE = 1, 2

GET = (b"l", b"get_contract_data", 2)
PUT = (b"l", b"put_contract_data", 3)
HAS = (b"l", b"has_contract_data", 2)
OTHER = (b"x", b"get_ledger_version", 0)


def constant(number):
    """The instruction `i64.const`."""
    out = bytearray()
    while not -64 <= number < 64:
        out.append(number & 0x7F | 0x80)
        number >>= 7
    return b"\x42" + bytes([*out, number & 0x7F])


def local_get(index):
    return b"\x20" + leb(index)


def local_set(index):
    return b"\x21" + leb(index)


def call(index):
    return b"\x10" + leb(index)


def get_and_put(key, kind, first):
    """The instructions of a turn that reads the value of a key and puts it there again, by the imports from `first` on."""
    read = constant(key) + constant(kind) + call(first) + local_set(1)
    return read + constant(key) + local_get(1) + constant(kind) + call(first + 1) + b"\x1a"


def only_has(key, kind, first):
    """The instructions of a turn that asks whether the key has a value, by the import `first`."""
    return constant(key) + constant(kind) + call(first) + b"\x1a"


def function(turn):
    """A function of a U32, which does the turn as many times."""
    count = local_get(0) + constant(32) + b"\x88" + local_set(0)
    down = local_get(0) + constant(1) + b"\x7d" + local_set(0)
    loop = b"\x02\x40\x03\x40" + local_get(0) + b"\x50\x0d\x01" + turn + down + b"\x0c\x00\x0b\x0b"
    return sized(b"\x01\x01\x7e" + count + loop + constant(2) + b"\x0b")


def module(turn, imports, pages):
    """A module with these imports, whose export `f` does the turn in a loop, and a memory of so many pages."""
    types = vec([b"\x60" + vec([I64] * arity) + vec([I64]) for arity in range(4)])
    named = vec([sized(letter) + sized(name) + b"\x00" + leb(arity) for letter, name, arity in imports])
    sections = [(1, types), (2, named), (3, vec([leb(1)]))]
    if pages:
        sections.append((5, vec([b"\x00" + leb(pages)])))
    sections += [(7, vec([sized(b"f") + b"\x00" + leb(len(imports))])), (10, vec([function(turn)]))]
    return b"\x00asm\x01\x00\x00\x00" + b"".join(leb(number) + sized(data) for number, data in sections)


def u32(number):
    """A U32 as a value."""
    return words(3, number)


def data(size):
    """Bytes of this size as a value."""
    return words(13, size) + bytes(size + -size % 4)


def vector(size):
    """A vec of so many U32s as a value."""
    return words(16, 1, size) + b"".join(map(u32, range(size)))


def u32_word(number):
    """A U32 as a word."""
    return number << 32 | 4


def record(key, body):
    """An entry in the file of a ledger, its key's hash and how long it lives behind it."""
    return words(50) + body + words(0) + hashlib.sha256(key).digest() + words(UNTIL)


class Contract:
    """A contract with one function, a persistent value at `ab`, and as many U32s in its instance."""

    def __init__(self, turn, imports=(GET, PUT), kind=PERSISTENT, others=0, pages=0, value=u32(0), members=0):
        key = AB_WORD if kind == PERSISTENT else u32_word(members // 3)
        self.code = module(turn(key, kind, others), (OTHER,) * others + imports, pages)
        self.code_key = words(7) + hashlib.sha256(self.code).digest()
        self.instance_key = words(6) + CONTRACT + words(20, 1)
        self.data_key = words(6) + CONTRACT + AB + words(1)
        self.value, self.members = value, members

    def ledger(self):
        """The file of a ledger of this contract."""
        members = b"".join(u32(number) + u32(number) for number in range(self.members))
        storage = words(1, self.members) + members if self.members else words(0)
        executable = words(19, 0) + self.code_key[4:]
        padding = bytes(-len(self.code) % 4)
        records = [
            record(self.data_key, words(6, 0) + self.data_key[4:] + self.value),
            record(self.instance_key, words(6, 0) + self.instance_key[4:] + executable + storage),
            record(self.code_key, words(7, 0) + self.code_key[4:] + words(len(self.code)) + self.code + padding),
        ]
        return header(MEMORY_LIMIT) + words(len(records)) + b"".join(records)

    def set(self, turns):
        """A set of one transaction that calls the contract's function."""
        invoke = words(24, 0) + CONTRACT + words(1) + b"f\0\0\0" + words(1) + u32(turns) + words(0)
        footprint = words(1) + self.code_key + words(2) + self.data_key + self.instance_key
        declared = words(1, 0) + footprint + words(MOST, MOST, MOST, 0, 0)
        transaction = words(0) + bytes(32) + words(100, 0, 1, 0, 0, 1, 0) + invoke + declared
        return words(1) + bytes(32) + words(1, 1, 0, 1, 1, 1, 2) + transaction + words(0)


def command(program, folder, contract, turns):
    """The command that applies a call of the contract with so many turns."""
    contents = {"set": contract.set(turns), "ledger": contract.ledger(), "verdicts": words(0)}
    return apply_command(program, folder, contents)


def least(program, folder, contract, turns):
    """The least processor seconds, and the least peak memory in MiB, of runs of a call with so many turns."""
    applies = command(program, folder, contract, turns)
    runs = []
    for _ in range(RUNS):
        start = processor_seconds()
        _, memory = measure(applies)
        runs.append((processor_seconds() - start, memory))
    with open(os.path.join(folder, "report"), "rb") as file:
        if not file.read().endswith(words(1) + VOID + words(0)):
            sys.exit("the call failed")
    return min(seconds for seconds, _ in runs), min(memory for _, memory in runs)


def instructions_of_turn(program, folder, contract, turns):
    """The instructions of a turn: those of twice as many turns less those of so many."""
    once, twice = (instructions(command(program, folder, contract, count)) for count in (turns, 2 * turns))
    return (twice - once) / turns


# A row has its name, the host calls of a turn, the turns, and the contract.
HAS_ONLY = {"turn": only_has, "imports": (HAS,)}
ROWS = [
    ("get and put, a U32", 2, TURNS, {}),
    ("the same behind 200 other imports", 2, TURNS, {"others": 200}),
    ("the same with 64 pages of memory", 2, TURNS, {"pages": 64}),
    ("the same beside 1,000 members of the instance", 2, TURNS, {"members": 1_000}),
    ("get and put, 1,000 bytes", 2, TURNS // 10, {"value": data(1_000)}),
    ("get and put, a vec of 100 U32s", 2, TURNS // 10, {"value": vector(100)}),
    ("has, a U32", 1, TURNS, HAS_ONLY),
    ("has, 1,000 bytes", 1, TURNS, {"value": data(1_000), **HAS_ONLY}),
    ("has, a vec of 1,000 U32s", 1, TURNS, {"value": vector(1_000), **HAS_ONLY}),
    ("has, instance storage of 10", 1, TURNS, {"kind": INSTANCE, "members": 10, **HAS_ONLY}),
    ("has, instance storage of 1,000", 1, TURNS, {"kind": INSTANCE, "members": 1_000, **HAS_ONLY}),
    ("get and put, instance storage of 10", 2, TURNS, {"kind": INSTANCE, "members": 10}),
    ("get and put, instance storage of 100", 2, TURNS // 10, {"kind": INSTANCE, "members": 100}),
    ("get and put, instance storage of 1,000", 2, TURNS // 100, {"kind": INSTANCE, "members": 1_000}),
]


def main():
    program = program_argument(__doc__)
    print("| turn of the loop | turns | host calls a second | peak memory | instructions of a turn |")
    print("|---|--:|--:|--:|--:|")
    with tempfile.TemporaryDirectory() as folder:
        for name, calls, turns, how in ROWS:
            contract = Contract(**{"turn": get_and_put, **how})
            empty, _ = least(program, folder, contract, 0)
            seconds, memory = least(program, folder, contract, turns)
            rate = calls * turns / (seconds - empty)
            each = instructions_of_turn(program, folder, contract, min(1_000, turns // 100))
            print(f"| {name} | {turns:,} | {rate:,.0f} | {memory:.0f} MiB | {each:,.0f} |", flush=True)


if __name__ == "__main__":
    main()
