#!/usr/bin/env python3
"""Builds transaction sets from lists of envelopes, and prints the processor's seconds, the least of five runs, the peak memory, and
the growth with ten times the list.

Three lists: the transactions of a set that `gen` makes, in the order in which it made them; envelopes that share no key, in 1,024
clusters; and envelopes that write two keys of 4,096 each, so that many open a stage.

usage: bench/building.py PROGRAM (the built program of crates/soroban_cmd; it needs GNU time)
"""

import os
import random
import struct
import subprocess
import tempfile

from ledgers import key, words
from measure import measure, processor_seconds, program_argument

COUNTS = (1_000, 10_000, 100_000)

# The bytes of an envelope that `gen` makes.
SIZE = 308


def envelope(number, read_only, read_write):
    """An envelope without operations that declares these keys."""
    source = number.to_bytes(32, "big")
    body = words(2, 0) + source + words(100, 0, number, 0, 0, 0)
    keys = [words(len(keys)) + b"".join(keys) for keys in (read_only, read_write)]
    return body + words(1, 0) + keys[0] + keys[1] + words(0, 0, 0, 0, 0) + words(0)


def generated(program, folder, count):
    """The envelopes of a set that `gen` makes, by their sequence numbers. Each has as many bytes as the first."""
    path = {name: os.path.join(folder, name) for name in ("gen", "ledger", "verdicts")}
    command = [program, "gen", "--count", str(count), "--seed", "1", "--set", path["gen"], "--ledger", path["ledger"]]
    subprocess.run([*command, "--verdicts", path["verdicts"]], stdout=subprocess.DEVNULL, check=True)
    with open(path["gen"], "rb") as file:
        data = file.read()
    stages, at, envelopes = struct.unpack_from(">I", data, 48)[0], 52, []
    for _ in range(stages):
        clusters, at = struct.unpack_from(">I", data, at)[0], at + 4
        for _ in range(clusters):
            length, at = struct.unpack_from(">I", data, at)[0], at + 4
            envelopes += [data[at + SIZE * k : at + SIZE * (k + 1)] for k in range(length)]
            at += SIZE * length
    assert at == len(data) and len(envelopes) == count
    return sorted(envelopes, key=lambda envelope: envelope[44:52])


def apart(program, folder, count):
    return [envelope(number, [], [key(number)]) for number in range(count)]


def with_two_keys(program, folder, count):
    draws = random.Random(1)
    return [envelope(number, [], [key(k) for k in draws.sample(range(4096), 2)]) for number in range(count)]


LISTS = (("transactions of gen", generated, 8), ("no shared key", apart, 1024), ("two of 4,096 keys", with_two_keys, 1024))


def least(command):
    """The processor's seconds, the least of five runs, and the peak memory in MiB of a command."""
    runs = []
    for _ in range(5):
        before = processor_seconds()
        memory = measure(command)[1]
        runs.append((processor_seconds() - before, memory))
    return min(runs)


def main():
    program = program_argument(__doc__)
    with tempfile.TemporaryDirectory() as folder:
        paths = [os.path.join(folder, name) for name in ("list", "set")]
        for name, make, clusters in LISTS:
            print(f"{name}, at most {clusters} clusters")
            before = None
            for count in COUNTS:
                with open(paths[0], "wb") as file:
                    file.write(words(count) + b"".join(make(program, folder, count)))
                command = [program, "build", "--list", paths[0], "--clusters", str(clusters), "--set", paths[1]]
                seconds, memory = least(command)
                growth = f", {seconds / before:.1f} times the time" if before else ""
                print(f"  {count} envelopes: {seconds:.3f} s, {memory:.0f} MiB{growth}")
                before = seconds


if __name__ == "__main__":
    main()
