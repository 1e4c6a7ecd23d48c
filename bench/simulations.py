#!/usr/bin/env python3
"""Simulates a transaction that calls a contract, whose function writes so many new keys. Prints seconds and peak memory.

The footprint is found by one run over a storage that records the touched keys, and a second run has this footprint. This shows
what both cost.

usage: bench/simulations.py PROGRAM (the built program of crates/soroban_cmd; it needs GNU time at /usr/bin/time)
"""

import os
import tempfile

from host_calls import CONTRACT, MOST, PERSISTENT, PUT, Contract, call, constant, local_get, u32
from ledgers import words
from measure import measure, program_argument

RUNS = 3
SIZES = [10, 100, 1_000, 10_000]


def put_new(_key, _kind, first):
    """The instructions of a turn that puts a U32 at a key of its own: the number of the turns that are left, as a U32."""
    key = local_get(0) + constant(32) + b"\x86" + constant(4) + b"\x84"
    return key + constant(4) + constant(PERSISTENT) + call(first) + b"\x1a"


def envelope(turns):
    """An envelope whose transaction calls the contract's function, with an empty footprint."""
    invoke = words(24, 0) + CONTRACT + words(1) + b"f\0\0\0" + words(1) + u32(turns) + words(0)
    declared = words(1, 0) + words(0, 0) + words(MOST, MOST, MOST, 0, 0)
    return words(2) + words(0) + bytes(32) + words(100, 0, 1, 0, 0, 1, 0) + invoke + declared + words(0)


def command(program, folder, contents):
    """The command that simulates, over these files."""
    words_of_command = [program, "simulate", "--close-time", "1001", "--out", os.path.join(folder, "out")]
    for name, data in contents.items():
        path = os.path.join(folder, name)
        with open(path, "wb") as file:
            file.write(data)
        words_of_command += [f"--{name}", path]
    return words_of_command


def main():
    program = program_argument(__doc__)
    contract = Contract(put_new, imports=(PUT,))
    print("| keys written | seconds | peak memory |")
    print("|--:|--:|--:|")
    with tempfile.TemporaryDirectory() as folder:
        for turns in SIZES:
            contents = {"tx": envelope(turns), "ledger": contract.ledger(), "verdicts": words(0)}
            runs = [measure(command(program, folder, contents)) for _ in range(RUNS)]
            seconds, memory = min(runs)
            print(f"| {turns:,} | {seconds:.3f} | {memory:.0f} MiB |", flush=True)


if __name__ == "__main__":
    main()
