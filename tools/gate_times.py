#!/usr/bin/env python3
"""Runs the gate from what is kept, and prints the processor seconds of each crate's proof, tests, edits and programs.

usage: tools/gate_times.py [COMMAND..]     (without words: bash .ci/run)

It reads /proc every quarter of a second, so processes that live shorter are counted in part.
"""
import os
import re
import subprocess
import sys
import time

TICKS = os.sysconf("SC_CLK_TCK")
KINDS = ["proof", "tests", "edits", "program"]


def words_of(pid):
    with open(f"/proc/{pid}/cmdline", "rb") as file:
        return file.read().decode(errors="replace").split("\0")


def seconds_of(pid):
    """Returns the processor seconds of a process and its ended children, and the number of its parent."""
    with open(f"/proc/{pid}/stat", encoding="utf-8", errors="replace") as file:
        fields = file.read().rpartition(")")[2].split()
    return sum(map(int, fields[11:15])) / TICKS, int(fields[1])


def kind_of(words, folder):
    """Returns which part of the gate a process of the prover belongs to."""
    if "rt-edit-" in folder:
        return "edits"
    if "--test" in words:
        return "tests"
    return "program" if "--crate-checked" in words else "proof"


def sample(root, found, children):
    """Notes the seconds of every process below `root` that proves or compiles a crate."""
    parents = {}
    for pid in filter(str.isdigit, os.listdir("/proc")):
        try:
            spent, parent = seconds_of(pid)
            parents[int(pid)] = (parent, spent)
        except OSError:
            continue
    for pid, (_, spent) in parents.items():
        above, depth = pid, 0
        while above in parents and above != root and depth < 40:
            above, depth = parents[above][0], depth + 1
        if above != root:
            continue
        if pid not in found:
            try:
                words, folder = words_of(pid), os.readlink(f"/proc/{pid}/cwd")
            except OSError:
                continue
            name = words[words.index("--crate-name") + 1] if "--crate-name" in words else None
            if name is None or not re.search(r"/rattle$", words[0]):
                continue
            found[pid] = (name, kind_of(words, folder))
        children[pid] = spent


def main():
    command = sys.argv[1:] or ["bash", ".ci/run"]
    started = time.monotonic()
    gate = subprocess.Popen(command)
    found, spent = {}, {}
    while gate.poll() is None:
        sample(gate.pid, found, spent)
        time.sleep(0.25)
    table = {}
    for pid, (name, kind) in found.items():
        row = table.setdefault(name, dict.fromkeys(KINDS, 0.0))
        row[kind] += spent.get(pid, 0.0)
    print(f"\n{time.monotonic() - started:.0f} seconds of wall time\n\n| crate | " + " | ".join(KINDS) + " |\n|---|" + "---|" * len(KINDS))
    for name, row in table.items():
        print(f"| `{name}` | " + " | ".join(f"{row[kind]:.0f}" for kind in KINDS) + " |")
    sums = [sum(row[kind] for row in table.values()) for kind in KINDS]
    print("| all | " + " | ".join(f"{each:.0f}" for each in sums) + f" |\n\n{sum(sums):.0f} processor seconds in all")
    return gate.returncode


if __name__ == "__main__":
    sys.exit(main())
