#!/usr/bin/env python3
"""Prints what a store costs that cannot tear: the seconds of `gen`, which stores three files, once in place of plain files, and once
over files with two names, which are written in place and not synced. Each time is the least of five runs.

usage: bench/stores.py PROGRAM [FOLDER] (the built program of crates/soroban_cmd; files lie in a new folder in FOLDER, else in .)
"""

import os
import subprocess
import sys
import tempfile
import time

NAMES = ["set", "ledger", "verdicts"]
RUNS = 5


def put_files(folder, twins):
    """Puts files at the names, each with a second name if they are to be written in place."""
    for name in NAMES:
        path = os.path.join(folder, name)
        for old in (path, path + ".twin"):
            if os.path.exists(old):
                os.unlink(old)
        with open(path, "wb"):
            pass
        if twins:
            os.link(path, path + ".twin")


def seconds(program, folder, count, twins):
    """Seconds of one run, and the bytes that it stored."""
    put_files(folder, twins)
    words = [word for name in NAMES for word in ("--" + name, os.path.join(folder, name))]
    start = time.monotonic()
    subprocess.run([program, "gen", "--count", str(count), "--seed", "1", *words], stdout=subprocess.DEVNULL, check=True)
    return time.monotonic() - start, sum(os.path.getsize(os.path.join(folder, name)) for name in NAMES)


def main():
    if len(sys.argv) not in (2, 3):
        sys.exit(__doc__.strip().split("\n\n")[-1])
    program = os.path.abspath(sys.argv[1])
    print("| transactions | three files | replaced | in place |\n|--:|--:|--:|--:|")
    for count in (1, 1_000, 20_000):
        with tempfile.TemporaryDirectory(dir=sys.argv[2] if len(sys.argv) == 3 else ".") as folder:
            ran = {twins: [seconds(program, folder, count, twins) for _ in range(RUNS)] for twins in (False, True)}
            size = ran[False][0][1]
            replaced, in_place = (min(took for took, _ in ran[twins]) for twins in (False, True))
            print(f"| {count:,} | {size / 2**20:.2f} MiB | {replaced:.4f} | {in_place:.4f} |")


if __name__ == "__main__":
    main()
