#!/usr/bin/env python3
"""Applies transactions that make the worst input known for each act that is charged, and runs commands on the worst logs and lists
that are known, each at three sizes, under callgrind.

For each act it prints the processor's instructions that it takes, their growth for ten times the size, what the act is charged,
and the processor's instructions that a unit of the charge buys, beside those that it buys in a call of `bump`, the contract of
generated sets. An act's figures are the difference of two transactions, one of which does it more often.

The charge is the sum of instructions and of bytes of memory that the program's budget counts, as `simulate` prints them. The
terms are those of generated ledgers: about 1 for each byte that is compared, copied, hashed, read or written.

Nobody is charged for the files of logs, lists and sets that are read. For each of these inputs, a second table has the bytes of
its files and the processor's instructions of the command, both less those of an input of size 0.

usage: bench/hostile.py PROGRAM [--only WORD] [--judge] (the built program of crates/soroban_cmd; it needs valgrind)

--only WORD takes the acts and inputs whose name has the word. With --judge the status is 1 if a unit buys more than PRICE times
what it buys in a call of `bump`, or if ten times the size takes more than LINEAR times the instructions.
"""

import argparse
import os
import pathlib
import re
import subprocess
import sys
import tempfile

from contracts import envelope, tx_set
from hostile_acts import ACTS
from ledgers import words
from measure import apply_command, instructions

TOP = pathlib.Path(__file__).resolve().parent.parent
sys.path[:0] = [str(TOP / "python"), str(TOP / "tools")]
import program_files  # noqa: E402
from hostile_files import FILES  # noqa: E402
from soroban_files import schema  # noqa: E402
from soroban_files.xdr import Cursor  # noqa: E402

PRICE, LINEAR = 100, 14
BUMPS = (100, 200)


def simulated(program, folder, case):
    """The charge of a case, which has to succeed, and its footprint."""
    command = [program, "simulate", "--close-time", "1001", "--out", os.path.join(folder, "out")]
    for name, content in {"tx": envelope(case.called), "ledger": case.ledger, "verdicts": case.verdicts}.items():
        path = os.path.join(folder, name)
        pathlib.Path(path).write_bytes(content)
        command += [f"--{name}", path]
    done = subprocess.run(command, stdout=subprocess.PIPE, text=True)
    used = re.search(r"^result 0 0\nused (\d+) instructions, (\d+) memory$", done.stdout, re.M)
    if not used:
        raise ValueError(f"the call failed with {done.returncode}: {done.stdout}")
    out = pathlib.Path(folder, "out").read_bytes()[4:]
    cursor = Cursor(out)
    schema.FOOTPRINT.read(cursor)
    return sum(map(int, used.groups())), out[: cursor.place]


def figures(program, folder, few, many, acts):
    """The processor's instructions and the charge of an act: two cases differ by so many acts."""
    counts = []
    for case in (few, many):
        charge, footprint = simulated(program, folder, case)
        contents = {"set": tx_set(case.called, footprint), "ledger": case.ledger, "verdicts": case.verdicts}
        counts.append((instructions(apply_command(program, folder, contents)), charge))
    return [(more - less) / acts for less, more in zip(*counts)]


def bumped(program, folder):
    """The processor's instructions and the charge of a call of `bump`."""
    applied = [
        instructions(apply_command(program, folder, {
            "set": program_files.generated_set(count, 1), "ledger": program_files.generated_ledger(), "verdicts": words(0)
        }))
        for count in BUMPS
    ]  # fmt: skip
    few, many = applied
    charge, _ = simulated(program, folder, Bump())
    return (many - few) / (BUMPS[1] - BUMPS[0]), charge


def reading(program, folder, make, size):
    """The bytes of the files of an input and the processor's instructions of its command."""
    given, files = make(size)
    for name, content in files.items():
        pathlib.Path(folder, name).write_bytes(content)
    return sum(map(len, files.values())), instructions([program, *given], folder)


class Bump:
    """A call of `bump`, the contract of generated sets."""

    called = program_files.call(0, "bump")
    ledger = program_files.generated_ledger()
    verdicts = words(0)


def judged(name, growth, price=0):
    """What is wrong with an act or an input, or nothing."""
    if price > PRICE:
        return [f"{name}: a unit of charge buys {price:.1f} times as much as for `bump`"]
    if growth > LINEAR:
        return [f"{name}: it takes {growth:.1f} times as much for ten times the size"]
    return []


def print_acts(given, folder):
    """Prints the table of acts. Returns what is wrong."""
    wrong = []
    acts = [it for it in ACTS if given.only in it[0]]
    if not acts:
        return wrong
    count, charge = bumped(given.program, folder)
    unit = count / charge
    print(f"A call of `bump` takes {count:,.0f} instructions and is charged {charge:,}: {unit:,.1f} a unit.\n")
    print("| act | n | instructions of the processor | for ten times n | charge | for ten times n | a unit, beside `bump` |")
    print("|---|--:|--:|--:|--:|--:|--:|")
    for name, sizes, cases in acts:
        rows = [figures(given.program, folder, *cases(size)) for size in sizes]
        growth, charged = (more / less if less else 0 for less, more in zip(rows[-2], rows[-1]))
        price = max(count / charge for count, charge in rows) / unit
        texts = [", ".join(f"{it:,.0f}" for it in column) for column in (sizes, *zip(*rows))]
        print(f"| {name} | {texts[0]} | {texts[1]} | {growth:.1f} | {texts[2]} | {charged:.1f} | {price:.1f} |", flush=True)
        wrong += judged(name, growth, price)
    return wrong


def print_files(given, folder):
    """Prints the table of inputs. Returns what is wrong."""
    wrong = []
    inputs = [it for it in FILES if given.only in it[0]]
    if inputs:
        print("\n| input | n | bytes | instructions of the processor | for ten times n | a byte |\n|---|--:|--:|--:|--:|--:|")
    for name, sizes, make in inputs:
        nothing = reading(given.program, folder, make, 0)
        rows = [tuple(it - less for it, less in zip(reading(given.program, folder, make, size), nothing)) for size in sizes]
        growth = rows[-1][1] / rows[-2][1]
        texts = [", ".join(f"{it:,.0f}" for it in column) for column in (sizes, *zip(*rows))]
        print(f"| {name} | {' | '.join(texts)} | {growth:.1f} | {rows[-1][1] / rows[-1][0]:,.0f} |", flush=True)
        wrong += judged(name, growth)
    return wrong


def options():
    parser = argparse.ArgumentParser(description=__doc__.split("\n\n")[0])
    parser.add_argument("program", type=os.path.abspath)
    parser.add_argument("--only", default="", help="the acts and inputs whose name has this word")
    parser.add_argument("--judge", action="store_true", help="end with 1 past a bound")
    return parser.parse_args()


def main():
    given = options()
    with tempfile.TemporaryDirectory() as folder:
        wrong = print_acts(given, folder) + print_files(given, folder)
    if given.judge and wrong:
        sys.exit("\n".join(wrong))


if __name__ == "__main__":
    main()
