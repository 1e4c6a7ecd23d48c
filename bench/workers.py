#!/usr/bin/env python3
"""Applies a set of 100,000 generated transactions with several numbers of workers, and prints for each the seconds, the processor
seconds, the peak memory, and how often a thread went to sleep: the least of three runs. It does so for the stages that `gen` makes,
and for the same transactions in one stage. Then it runs four commands of one worker side by side: what four threads can reach on
this machine. Stops if a report or a ledger differs.

usage: bench/workers.py PROGRAM (the built program of crates/soroban_cmd; it needs GNU time at /usr/bin/time)
"""

import os
import resource
import subprocess
import sys
import tempfile
import time

from measure import measure, processor_seconds, program_argument

COUNT = 100_000
WORKERS = (1, 2, 4)
RUNS = 3

# A generated set has these bytes before the count of its stages, so many clusters in a stage, and transactions of this size.
HEAD = 48
CLUSTERS = 8
TRANSACTION = 308


def path(folder, name):
    return os.path.join(folder, name)


def number_at(data, at):
    return int.from_bytes(data[at : at + 4], "big")


def in_one_stage(made):
    """A generated set with all its transactions in one stage: each cluster has those of its index in all stages."""
    clusters = [b""] * CLUSTERS
    at = HEAD + 4
    for _ in range(number_at(made, HEAD)):
        count, at = number_at(made, at), at + 4
        for index in range(count):
            end = at + 4 + TRANSACTION * number_at(made, at)
            clusters[index] += made[at + 4 : end]
            at = end
    if at != len(made):
        sys.exit("the generated set has another form")
    counts = [len(cluster) // TRANSACTION for cluster in clusters]
    words = [count.to_bytes(4, "big") + cluster for count, cluster in zip(counts, clusters)]
    return made[:HEAD] + (1).to_bytes(4, "big") + CLUSTERS.to_bytes(4, "big") + b"".join(words)


def apply_command(program, folder, workers, mark, set_name="set"):
    """The command that applies a set in the folder. The names of what it stores end with the mark."""
    words = [program, "apply", "--close-time", "4294967296", "--workers", str(workers), "--set", path(folder, set_name)]
    for name in ("ledger", "verdicts"):
        words += [f"--{name}", path(folder, name)]
    return [*words, "--report", path(folder, f"report{mark}"), "--ledger-out", path(folder, f"next{mark}")]


def stored(folder, mark):
    """The bytes of the report and of the new ledger."""
    contents = []
    for name in ("report", "next"):
        with open(path(folder, f"{name}{mark}"), "rb") as file:
            contents.append(file.read())
    return contents


def sleeps():
    """How often a thread of a command that has ended went to sleep."""
    return resource.getrusage(resource.RUSAGE_CHILDREN).ru_nvcsw


def one_run(command):
    """Seconds, processor seconds and peak memory in MiB of a command, and how often its threads went to sleep."""
    before, slept = processor_seconds(), sleeps()
    seconds, memory = measure(command)
    return seconds, processor_seconds() - before, memory, sleeps() - slept


def measure_set(program, folder, set_name):
    """Prints a line for each number of workers. Stops if what they store differs."""
    for workers in WORKERS:
        runs = [one_run(apply_command(program, folder, workers, workers, set_name)) for _ in range(RUNS)]
        seconds, processor, memory, slept = map(min, zip(*runs))
        print(
            f"{workers} workers: {seconds:.2f} s, {processor:.2f} processor s, {memory:.0f} MiB, {slept:,} sleeps", flush=True
        )
        if stored(folder, workers) != stored(folder, WORKERS[0]):
            sys.exit("not the same bytes")


def side_by_side(program, folder):
    """Seconds of four commands of one worker that run at the same time."""
    start = time.monotonic()
    commands = [apply_command(program, folder, 1, f"_{index}") for index in range(4)]
    running = [subprocess.Popen(command, stdout=subprocess.DEVNULL) for command in commands]
    if any([child.wait() for child in running]):
        sys.exit("a command failed")
    return time.monotonic() - start


def main():
    program = program_argument(__doc__)
    with tempfile.TemporaryDirectory() as folder:
        gen = [program, "gen", "--count", str(COUNT), "--seed", "1"]
        for name in ("set", "ledger", "verdicts"):
            gen += [f"--{name}", path(folder, name)]
        measure(gen)
        with open(path(folder, "set"), "rb") as file:
            made = file.read()
        with open(path(folder, "one_stage"), "wb") as file:
            file.write(in_one_stage(made))
        print("as made:")
        measure_set(program, folder, "set")
        print("in one stage:")
        measure_set(program, folder, "one_stage")
        least = min(side_by_side(program, folder) for _ in range(RUNS))
        print(f"four commands side by side: {least:.2f} s, {least / 4:.2f} s for each")


if __name__ == "__main__":
    main()
