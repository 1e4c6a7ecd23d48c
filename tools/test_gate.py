#!/usr/bin/env python3
"""Tests .ci/run with stand-ins for `rt ci` and for tools/after_ci.sh: its status, and its last line.

python3 tools/test_gate.py
"""
import os
import pathlib
import subprocess
import sys
import tempfile

GATE = pathlib.Path(__file__).resolve().parent.parent / ".ci" / "run"
# What `rt ci` prints and its status, the same of after_ci.sh, and the status and the last line of the gate.
CASES = [
    ("60 passed, 0 failed", 0, "3 passed, 0 failed", 0, 0, "63 passed, 0 failed"),
    ("59 passed, 1 failed", 1, "3 passed, 0 failed", 0, 1, "59 passed, 1 failed"),
    ("0 passed, 1 failed", 2, "3 passed, 0 failed", 0, 2, "0 passed, 1 failed"),
    ("60 passed, 0 failed", 0, "2 passed, 1 failed", 1, 1, "62 passed, 1 failed"),
    ("no tally", 137, "3 passed, 0 failed", 0, 137, "0 passed, 1 failed"),
    ("60 passed, 0 failed", 0, "no tally", 2, 2, "60 passed, 1 failed"),
    ("60 passed, 0 failed", 0, "no tally", 0, 1, "60 passed, 1 failed"),
    ("60 passed, 0 failed", 3, "3 passed, 0 failed", 0, 3, "60 passed, 1 failed"),
]


def run_gate(prints, status, after_prints, after_status):
    """Returns the status and the last line of the gate in a folder with the stand-ins."""
    with tempfile.TemporaryDirectory() as folder:
        top = pathlib.Path(folder)
        for file, text in {
            ".ci/run": GATE.read_text(encoding="utf-8"),
            "tools/after_ci.sh": f"echo 'ok some check'\necho '{after_prints}'\nexit {after_status}\n",
            "bin/rt": f"#!/bin/sh\n[ \"$*\" = ci ] || exit 9\necho '{prints}'\nexit {status}\n",
        }.items():
            path = top / file
            path.parent.mkdir()
            path.write_text(text, encoding="utf-8")
            path.chmod(0o755)
        how = {"env": {**os.environ, "PATH": f"{top / 'bin'}:{os.environ['PATH']}"}, "stdin": subprocess.DEVNULL, "cwd": "/"}
        ran = subprocess.run(["sh", top / ".ci" / "run"], stdout=subprocess.PIPE, stderr=subprocess.STDOUT, text=True, **how)
    return ran.returncode, ran.stdout.splitlines()[-1]


def main():
    if len(sys.argv) > 1:
        sys.exit(__doc__)
    wrong = [(case, came) for case in CASES for came in [run_gate(*case[:4])] if came != case[4:]]
    for case, came in wrong:
        print(f"{case}: came {came}")
    print(f"{len(CASES) - len(wrong)} of {len(CASES)} runs of the gate end as they should")
    return 1 if wrong else 0


if __name__ == "__main__":
    sys.exit(main())
