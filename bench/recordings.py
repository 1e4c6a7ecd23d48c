#!/usr/bin/env python3
"""Records a transaction that calls a contract, whose function demands so many authorisations: of as many accounts, or of one.
Prints seconds, peak memory, and the processor's instructions of a demand.

Each demand comes in the same frame, so each makes a tree of its own. The instructions are counted by callgrind: those of the
whole command, less those of the same command with no demand, divided by the demands. Rows with as many instructions for
different sizes show that a demand does not go through the nodes that were noted before it.

usage: bench/recordings.py PROGRAM (the built program of crates/soroban_cmd; it needs valgrind, and GNU time at /usr/bin/time)
"""

import os
import tempfile

from contracts import CALLER, Turn, contract_records, envelope, ledger, looping, operation, value_u32, vector
from ledgers import words
from measure import instructions, measure, program_argument

RUNS = 3
SIZES = [10, 100, 1_000]


def account(number):
    """The address of an account as a value."""
    return words(18, 0, 0) + number.to_bytes(32, "big")


def demanding():
    """The turn that demands, without arguments, the authorisation of an address of the vec that is the argument: the one whose
    index is the number of the turns that are left."""
    turn = Turn(arguments=1)
    return turn.host("vec_get", turn.argument(0), turn.count()).host("vec_new").host("require_auth_for_args").drop()


def command(program, folder, contents):
    """The command that records, over these files."""
    terms = ["--close-time", "1001", "--nonce", "1", "--expiration", "500"]
    given = [program, "record", *terms, "--out", os.path.join(folder, "out")]
    for name, data in contents.items():
        path = os.path.join(folder, name)
        with open(path, "wb") as file:
            file.write(data)
        given += [f"--{name}", path]
    return given


def contents(records, size, accounts):
    """The files of a call that demands so many authorisations, of so many accounts in turn."""
    addresses = vector([account(1 + number % accounts) for number in range(size + 1)])
    called = operation(CALLER, "f", [value_u32(size), addresses])
    return {"tx": envelope(called), "ledger": ledger(records)}


def main():
    program = program_argument(__doc__)
    records = contract_records(CALLER, looping(demanding()))
    print("| demands | accounts | seconds | peak memory | instructions of a demand |")
    print("|--:|--:|--:|--:|--:|")
    with tempfile.TemporaryDirectory() as folder:
        none = instructions(command(program, folder, contents(records, 0, 1)))
        for size in SIZES:
            for accounts in (size, 1):
                recorded = command(program, folder, contents(records, size, accounts))
                seconds, memory = min(measure(recorded) for _ in range(RUNS))
                each = (instructions(recorded) - none) / size
                print(f"| {size:,} | {accounts:,} | {seconds:.3f} | {memory:.0f} MiB | {each:,.0f} |", flush=True)


if __name__ == "__main__":
    main()
