"""What the scripts of this folder share: their one argument, and the seconds, processor time, instructions and peak memory of a
command."""

import os
import re
import resource
import subprocess
import sys
import time


def program_argument(about):
    """The full path of the program that is the one argument; else the usage at the end of `about`, and status 2."""
    if len(sys.argv) != 2:
        print(about.strip().split("\n\n")[-1], file=sys.stderr)
        sys.exit(2)
    return os.path.abspath(sys.argv[1])


def processor_seconds():
    """Seconds of processor time of all commands that have ended."""
    used = resource.getrusage(resource.RUSAGE_CHILDREN)
    return used.ru_utime + used.ru_stime


def measure(command, status=0):
    """Seconds and peak memory in MiB of a command that ends with this status.

    GNU time starts it: a child of this interpreter would be charged with the interpreter's own peak.
    """
    start = time.monotonic()
    done = subprocess.run(
        ["/usr/bin/time", "-q", "-f", "%M", *command], stdout=subprocess.DEVNULL, stderr=subprocess.PIPE, text=True
    )
    seconds = time.monotonic() - start
    if done.returncode != status:
        sys.exit(f"{command[0]} ended with {done.returncode}: {done.stderr}")
    return seconds, int(done.stderr.split()[-1]) / 1024


def instructions(command, folder=None, status=0):
    """The processor's instructions of a command in a folder that ends with this status, counted by callgrind."""
    how = ["valgrind", "--tool=callgrind", "--callgrind-out-file=/dev/null"]
    done = subprocess.run([*how, *command], cwd=folder, stdout=subprocess.DEVNULL, stderr=subprocess.PIPE, text=True)
    if done.returncode != status:
        sys.exit(f"{command[0]} ended with {done.returncode}: {done.stderr}")
    return int(re.search(r"Collected : (\d+)", done.stderr)[1])


def apply_command(program, folder, contents):
    """The command that applies a set to a ledger.

    The contents of the files `set`, `ledger` and `verdicts` are given by name; they are stored in the folder.
    """
    path = {name: os.path.join(folder, name) for name in ("set", "ledger", "verdicts", "report", "next")}
    for name, data in contents.items():
        with open(path[name], "wb") as file:
            file.write(data)
    return [
        program, "apply", "--set", path["set"], "--ledger", path["ledger"], "--verdicts", path["verdicts"],
        "--close-time", "1001", "--workers", "1", "--report", path["report"], "--ledger-out", path["next"],
    ]


def measure_apply(program, folder, contents):
    """Seconds and peak memory in MiB of applying a set to a ledger, as `apply_command` does."""
    return measure(apply_command(program, folder, contents))
