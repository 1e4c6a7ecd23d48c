#!/usr/bin/env python3
"""Applies sets in which each transaction extends the life of an entry of its own, in one cluster, and in stages of 512
transactions in 8 clusters; makes sets of as many transactions with `gen`, and applies those: each of their transactions calls a
contract. Prints a row for each: transactions, seconds and peak memory, the least of three runs.

usage: bench/clusters.py PROGRAM (the built program of crates/soroban_cmd; it needs GNU time at /usr/bin/time)
"""

import os
import tempfile

from ledgers import ledger, words
from measure import measure, measure_apply, program_argument
from sets import transaction, transaction_set

CLUSTER = 64
STAGE = 8 * CLUSTER
RUNS = 3


def parts(numbers, size):
    """The numbers in parts of this size; the last may be smaller."""
    return [numbers[at : at + size] for at in range(0, len(numbers), size)]


def stage(numbers):
    """A stage of these transactions in clusters."""
    clusters = parts(numbers, CLUSTER)
    return words(len(clusters)) + b"".join(
        words(len(cluster)) + b"".join(map(transaction, cluster)) for cluster in clusters
    )


def staged_set(count):
    """A set of this many transactions in stages."""
    stages = parts(range(count), STAGE)
    return words(1) + bytes(32) + words(1, 1, 0, len(stages)) + b"".join(map(stage, stages))


def made_paths(folder):
    """The paths of a made set and of the files that belong to it."""
    return {name: os.path.join(folder, "made_" + name) for name in ("set", "ledger", "verdicts")}


def measure_gen(program, folder, count):
    """Seconds and peak memory in MiB of making a set of this many transactions."""
    path = made_paths(folder)
    return measure([
        program, "gen", "--count", str(count), "--seed", "1",
        "--set", path["set"], "--ledger", path["ledger"], "--verdicts", path["verdicts"],
    ])


def measure_calls(program, folder):
    """Seconds and peak memory in MiB of applying the set that was made last."""
    contents = {}
    for name, path in made_paths(folder).items():
        with open(path, "rb") as file:
            contents[name] = file.read()
    return measure_apply(program, folder, contents)


def row(name, count, runs):
    """Prints the least of these runs."""
    seconds, memory = min(runs)
    print(f"| {name} | {count:,} | {seconds:.3f} | {memory:.0f} MiB |")


def main():
    program = program_argument(__doc__)
    print("| what | transactions | seconds | peak memory |")
    print("|---|---|---|---|")
    with tempfile.TemporaryDirectory() as folder:
        for count in (1_000, 10_000, 100_000):
            entries = {"ledger": ledger(count), "verdicts": words(0)}
            for name, made in (("one cluster", transaction_set), ("stages", staged_set)):
                contents = {"set": made(count), **entries}
                row(name, count, [measure_apply(program, folder, contents) for _ in range(RUNS)])
            row("`gen`", count, [measure_gen(program, folder, count) for _ in range(RUNS)])
            row("calls", count, [measure_calls(program, folder) for _ in range(RUNS)])


if __name__ == "__main__":
    main()
