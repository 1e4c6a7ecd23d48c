#!/usr/bin/env python3
"""Reads and writes a large transaction set with conformance, and prints MB a second of both together beside sha256sum.

usage: bench/sets.py CONFORMANCE (the built program of crates/conformance; it needs sha256sum)
"""

import os
import subprocess
import tempfile
import time

from ledgers import key, words
from measure import program_argument

TRANSACTIONS = 100_000
TURNS = 10


def transaction(number):
    """An envelope that lets the entry of a contract live for 500 ledgers more, with time bounds, a memo and a signature."""
    source = number.to_bytes(32, "big")
    bounds = words(1, 0, 0, 0, 2_000_000_000)
    memo = words(1, 5) + b"hello\0\0\0"
    operation = words(1, 0, 25, 0, 500)
    declared = words(1, 0, 1) + key(number) + words(0, 0, 0, 0, 0, 0)
    signature = words(1) + source[28:] + words(64) + bytes(64)
    return words(2, 0) + source + words(100, 0, number) + bounds + memo + operation + declared + signature


def transaction_set(count):
    """A set of this many transactions in one cluster."""
    front = words(1) + bytes(32) + words(1, 1, 0, 1, 1, count)
    return front + b"".join(map(transaction, range(count)))


def seconds(*command):
    """Seconds of a command."""
    start = time.monotonic()
    subprocess.run(command, stdout=subprocess.DEVNULL, check=True)
    return time.monotonic() - start


def main():
    program = program_argument(__doc__)
    with tempfile.TemporaryDirectory() as folder:
        path = os.path.join(folder, "set")
        data = transaction_set(TRANSACTIONS)
        with open(path, "wb") as file:
            file.write(data)
        once = seconds(program, "bench", "set", "1", path)
        turn = (seconds(program, "bench", "set", str(TURNS + 1), path) - once) / TURNS
        hashed = seconds("sha256sum", path)
        size = len(data) / 1e6
        print(f"{TRANSACTIONS} transactions, {size:.1f} MB")
        print(f"read and written: {size / turn:.0f} MB/s")
        print(f"sha256sum: {size / hashed:.0f} MB/s")
        print(f"ratio: {turn / hashed:.1f} times the time of sha256sum")


if __name__ == "__main__":
    main()
