#!/usr/bin/env python3
"""Applies lists of transactions as they are, and the sets that `build` makes of them, with 1 and 4 workers, and prints for each the
seconds and the processor's seconds, the least of three runs, the peak memory, and how many runs of `apply-list` were kept.

Two lists of calls that add 1 to a counter: those that `gen` makes, which call 64 contracts, so that all but the first call of each
run again; and one call for each contract, so that every run is kept. Stops if the ledgers of the four runs of a list differ.

usage: bench/listing.py PROGRAM (the built program of crates/soroban_cmd; it needs GNU time)
"""

import os
import pathlib
import subprocess
import sys
import tempfile

from measure import measure, processor_seconds, program_argument

sys.path.insert(0, str(pathlib.Path(__file__).resolve().parent.parent / "tools"))
import program_files  # noqa: E402

COUNT = 20_000
CONTRACTS = 64
CLUSTERS = 8
WORKERS = (1, 4)
RUNS = 3
TIME = "1005"


def calls(numbers):
    """The file of a list of calls, one of each contract that is named. Each declares the footprint that its run needs."""
    files = program_files
    return files.array([files.envelope(files.bump_transaction(k + 1, number)) for k, number in enumerate(numbers)])


def counters(count):
    """The file of a ledger with so many contracts, whose counters are 0."""
    return program_files.ledger_file(program_files.counting_records([0] * count))


def least(command):
    """The least seconds and processor's seconds of some runs, and the peak memory in MiB of a command."""
    runs = []
    for _ in range(RUNS):
        before = processor_seconds()
        seconds, memory = measure(command)
        runs.append((seconds, processor_seconds() - before, memory))
    return tuple(map(min, zip(*runs)))


def content(path):
    with open(path, "rb") as file:
        return file.read()


def main():
    program = program_argument(__doc__)
    lists = (
        ("transactions of gen", calls(program_files.drawn(COUNT, 1)), counters(CONTRACTS)),
        ("a contract for each transaction", calls(range(COUNT)), counters(COUNT)),
    )
    with tempfile.TemporaryDirectory() as folder:
        path = {name: os.path.join(folder, name) for name in ("list", "set", "ledger", "verdicts", "report", "next")}
        rest = ["--ledger", path["ledger"], "--verdicts", path["verdicts"], "--close-time", TIME]
        rest += ["--report", path["report"], "--ledger-out", path["next"]]
        for name, listed, ledger in lists:
            print(f"{name}, {COUNT} transactions")
            for file_name, data in (("list", listed), ("ledger", ledger), ("verdicts", bytes(4))):
                with open(path[file_name], "wb") as file:
                    file.write(data)
            build = [program, "build", "--list", path["list"], "--clusters", str(CLUSTERS), "--set", path["set"]]
            subprocess.run(build, stdout=subprocess.DEVNULL, check=True)
            ledgers = set()
            for words in (["apply-list", "--list", path["list"]], ["apply", "--set", path["set"]]):
                for workers in WORKERS:
                    command = [program, *words, "--workers", str(workers), *rest]
                    last = subprocess.run(command, stdout=subprocess.PIPE, check=True, text=True).stdout.splitlines()[-1]
                    seconds, processor, memory = least(command)
                    kept = f", {last}" if last.startswith("kept") else ""
                    print(f"  {words[0]}, {workers} workers: {seconds:.2f} s, {processor:.2f} processor s, {memory:.0f} MiB{kept}", flush=True)
                    ledgers.add(content(path["next"]))
            if len(ledgers) != 1:
                sys.exit("not the same ledger")


if __name__ == "__main__":
    main()
