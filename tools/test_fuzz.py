#!/usr/bin/env python3
"""Tests tools/fuzz.py: it finds programs with a fault, keeps what it finds, and finds nothing in the program without one.

python3 tools/test_fuzz.py PROGRAM [--is-checked]

Each faulty program is a script that runs PROGRAM, and does something wrong if PROGRAM refuses its input. --is-checked is an
option of tools/fuzz.py.
"""
import os
import pathlib
import subprocess
import sys
import tempfile

TOOLS = pathlib.Path(__file__).resolve().parent
# What a faulty program does, and what the tool says of it.
FAULTS = {
    "crashes": ("kill -SEGV $$", "ended by the signal 11"),
    "hangs": ("sleep 1000", "it did not end in time"),
    "stores at a refusal": ("echo >next; echo >ledger-out", "ledger-out is changed"),
    "answers nonsense": ("echo nonsense", "are no answer to this command"),
    "answers another command": ("echo 'made 1 transactions in 1 stages'; exit 0", "are no answer to this command"),
    "complains": ("echo 'a panic' >&2", "it complains on the standard error"),
    "refuses without a line": ("", "are no answer to this command"),
}
SCRIPT = """#!/bin/sh
said=$({program!r} "$@"; echo "$?.")
code=${{said##*
}}
code=${{code%.}}
if [ "$code" = 1 ] || [ "$code" = 3 ]; then
    {fault}
else
    printf %s "${{said%"$code".}}"
fi
exit "$code"
"""


def fuzzed(program, words):
    """Returns the status and the output of the tool."""
    command = [sys.executable, str(TOOLS / "fuzz.py"), program, *words]
    ran = subprocess.run(command, stdin=subprocess.DEVNULL, stdout=subprocess.PIPE, stderr=subprocess.STDOUT, text=True)
    return ran.returncode, ran.stdout


def finds(program, folder, how, wanted):
    """Whether the tool finds a fault, keeps its files and its command, and finds the same input again. Prints why not."""
    kept = folder / "kept"
    status, text = fuzzed(program, ["--seed", "3", "--count", "60", "--most", "1", "--keep", str(kept), *how])
    found = sorted(kept.iterdir()) if kept.is_dir() else []
    if status != 1 or len(found) != 1 or wanted not in (found[0] / "answer").read_text(encoding="utf-8"):
        print(text)
        return False
    seed, index = found[0].name.split("-")
    again, text = fuzzed(program, ["--seed", seed, "--first", index, "--count", "1", *how])
    command = (found[0] / "command").read_text(encoding="utf-8")
    if again != 1 or command not in text or not (found[0] / "files").is_dir():
        print(text)
        return False
    return True


def main():
    if len(sys.argv) < 2:
        sys.exit(__doc__)
    status, program, how = 0, os.path.abspath(sys.argv[1]), sys.argv[2:]
    for name, (fault, wanted) in FAULTS.items():
        with tempfile.TemporaryDirectory() as folder:
            script = pathlib.Path(folder, "program")
            script.write_text(SCRIPT.format(program=program, fault=fault or ":"), encoding="utf-8")
            script.chmod(0o755)
            bound = ["--seconds", "3"] if name == "hangs" else []
            is_right = finds(str(script), pathlib.Path(folder), [*how, *bound], wanted)
        print(f"{'ok' if is_right else 'FAILED'} a program that {name}")
        status |= not is_right
    first, second = (fuzzed(program, ["--seed", "3", "--count", "40", *how]) for _ in range(2))
    if first[0] or first != second:
        print(first[1], second[1])
        status = 1
    print(f"{'FAILED' if first[0] or first != second else 'ok'} the program itself, twice the same")
    return int(status)


if __name__ == "__main__":
    sys.exit(main())
