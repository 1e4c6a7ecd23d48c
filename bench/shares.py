#!/usr/bin/env python3
"""Makes a set of 10,000 transactions with `gen`, each of which calls a contract, applies it under callgrind, and prints which
share of the processor's instructions each part of the work takes.

An instruction counts for the innermost function around it that belongs to a part. So a comparison of keys counts for the part
that looks the key up. The lines below the parts count over all parts.

usage: bench/shares.py PROGRAM (the built program of crates/soroban_cmd; it needs valgrind)
"""

import os
import re
import subprocess
import tempfile
from collections import Counter

from measure import program_argument

COUNT = 10_000

# What the names of a part's functions begin with. The first part decides; the compiler puts the machine into the functions of
# `contract_call` that run it.
PARTS = [
    ("reading the set and the ledger", ["command_io::decode::", "command_io::inputs::", "ledger_file::reading::"]),
    ("conflicts of the stages", ["stage_plan::"]),
    ("checks, limits and changes of transactions", ["tx_steps::", "tx_apply::", "set_steps::", "ledger_apply::"]),
    ("reading and checking the module", ["module_loader::", "wasm_read::", "wasm_check::", "wasm_code::", "host_interface::"]),
    ("running WebAssembly", [
        "wasm_run::", "wasm_machine::", "wasm_num::",
        *(f"contract_call::calls::{name}" for name in ("enter", "open", "inside", "run")),
    ]),
    ("finding the contract and its code", ["contract_call::", "call_host::", "call_parts::"]),
    ("host functions and their storage", ["host_acts::", "host_ledger::", "host_values::", "host_frame::", "object_store::"]),
    ("hashing", ["sha2::", "tx_xdr::hashing::", "ledger_types::keys::key_hash"]),
    ("writing the report and the ledger", ["ledger_file::writing::", "tx_results::", "soroban_top::outputs::", "command_io::report::"]),
]
# The part of functions that are below no function of a part.
ELSE = [
    ("reading the set and the ledger", ["value_xdr::xdr::Xdr::read", "command_io::files::read_file"]),
    ("writing the report and the ledger", ["value_xdr::xdr::Xdr::write", "xdr_core::out::"]),
]
# What a line below the parts counts: functions with all that they call.
ACROSS = [
    ("comparing ledger keys", ["ledger_types::key_order::", "entry_map::order::"]),
    ("SHA-256", ["sha2::"]),
    ("allocating and freeing", ["rattle_alloc", "rattle_realloc", "rattle_dealloc"]),
]


def made(program, folder, count):
    """Makes a set of so many transactions. Returns the command that applies it."""
    path = {name: os.path.join(folder, name) for name in ("set", "ledger", "verdicts", "report", "next")}
    given = [word for name in ("set", "ledger", "verdicts") for word in ("--" + name, path[name])]
    subprocess.run([program, "gen", "--count", str(count), "--seed", "1", *given], stdout=subprocess.DEVNULL, check=True)
    rest = ["--close-time", "1001", "--workers", "1", "--report", path["report"], "--ledger-out", path["next"]]
    return [program, "apply", *given, *rest]


def counted(command, folder):
    """The instructions of a command by chains of callers, the innermost function first."""
    path = os.path.join(folder, "counts")
    how = ["--separate-callers=40", "--compress-strings=no", "--compress-pos=no", f"--callgrind-out-file={path}"]
    subprocess.run(["valgrind", "-q", "--tool=callgrind", *how, *command], stdout=subprocess.DEVNULL, check=True)
    counts = Counter()
    chain, is_call = (), False
    with open(path) as file:
        for line in file:
            if line.startswith("fn="):
                chain = tuple(line[3:].strip().split("'"))
            elif line.startswith("calls="):
                is_call = True
            elif re.match(r"[0-9+*-]", line):
                if not is_call:
                    counts[chain] += int(line.split()[1])
                is_call = False
    return counts


def begins(function, beginnings):
    """Whether a function's name begins with one of these."""
    return any(function.startswith(beginning) for beginning in beginnings)


def part_of(chain):
    """The part that the instructions of a chain count for."""
    for parts in (PARTS, ELSE):
        for function in chain:
            for part, beginnings in parts:
                if begins(function, beginnings):
                    return part
    return "the rest"


def main():
    program = program_argument(__doc__)
    with tempfile.TemporaryDirectory() as folder:
        counts = counted(made(program, folder, COUNT), folder)
    total = counts.total()
    shares = Counter()
    for chain, number in counts.items():
        shares[part_of(chain)] += number
    print(f"{total / COUNT:,.0f} instructions of the processor for each transaction\n")
    print("| part | share |")
    print("|---|--:|")
    for part in [*(part for part, _ in PARTS), "the rest"]:
        print(f"| {part} | {shares[part] / total:.1%} |")
    for name, beginnings in ACROSS:
        number = sum(n for chain, n in counts.items() if any(begins(function, beginnings) for function in chain))
        print(f"| of all these: {name} | {number / total:.1%} |")


if __name__ == "__main__":
    main()
