#!/usr/bin/env python3
"""Applies a set of 100,000 generated transactions without and with a change log, with 1 and 4 workers, and plays the log there and
back. Prints for each the seconds, the processor seconds and the peak memory, the least of three runs, and the size of the log. Stops
if a log differs, or if playing it does not lead to the ledger.

usage: bench/logs.py PROGRAM (the built program of crates/soroban_cmd; it needs GNU time)
"""

import os
import sys
import tempfile

from measure import measure, processor_seconds, program_argument
from workers import apply_command, path

COUNT = 100_000
WORKERS = (1, 4)
RUNS = 3


def print_least(name, command):
    """Prints the least seconds, processor seconds and peak memory of some runs of a command."""
    runs = []
    for _ in range(RUNS):
        before = processor_seconds()
        seconds, memory = measure(command)
        runs.append((seconds, processor_seconds() - before, memory))
    seconds, processor, memory = map(min, zip(*runs))
    print(f"{name}: {seconds:.2f} s, {processor:.2f} processor s, {memory:.0f} MiB", flush=True)


def content(folder, name):
    with open(path(folder, name), "rb") as file:
        return file.read()


def play_command(program, folder, ledger, played, back):
    """The command that plays the log on a ledger of the folder."""
    words = [program, "play", "--back", str(back), "--log", path(folder, f"log{WORKERS[0]}")]
    return [*words, "--ledger", path(folder, ledger), "--ledger-out", path(folder, played)]


def main():
    program = program_argument(__doc__)
    with tempfile.TemporaryDirectory() as folder:
        gen = [program, "gen", "--count", str(COUNT), "--seed", "1"]
        for name in ("set", "ledger", "verdicts"):
            gen += [f"--{name}", path(folder, name)]
        measure(gen)
        for workers in WORKERS:
            command = apply_command(program, folder, workers, workers)
            print_least(f"apply, {workers} workers", command)
            print_least(f"apply --log, {workers} workers", [*command, "--log", path(folder, f"log{workers}")])
        logs = [content(folder, f"log{workers}") for workers in WORKERS]
        if logs[1:] != logs[:-1]:
            sys.exit("not the same log")
        print(f"the log has {os.path.getsize(path(folder, f'log{WORKERS[0]}')):,} bytes")
        for ledger, played, back in (("ledger", "next1", 0), ("next1", "ledger", 1)):
            print_least(f"play --back {back}", play_command(program, folder, ledger, "played", back))
            if content(folder, "played") != content(folder, played):
                sys.exit("not the ledger that the log leads to")


if __name__ == "__main__":
    main()
