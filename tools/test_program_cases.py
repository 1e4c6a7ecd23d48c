#!/usr/bin/env python3
"""Tests tools/program_cases.py: its tables fail for programs with a fault, and hold for the same program without one.

python3 tools/test_program_cases.py PROGRAM

Each faulty program is a script that runs PROGRAM. No proof refuses such faults: they lie behind the operating system.
"""
import os
import pathlib
import subprocess
import sys
import tempfile

TOOLS = pathlib.Path(__file__).resolve().parent
TABLES = [TOOLS / "program_cases" / name for name in ("outside.txt", "large.txt")]
FAULTS = ["words", "code", "output", "store"]
SCRIPT = """#!{python}
import os, subprocess, sys
fault, words = {fault!r}, sys.argv[1:]
times = {{name: os.stat(name).st_mtime_ns for name in os.listdir() if os.path.isfile(name)}}
if fault == "words":  # ignores its words
    words = []
if fault == "output":  # stops its output after 4,096 bytes
    ran = subprocess.run([{program!r}, *words], stdout=subprocess.PIPE)
    os.write(1, ran.stdout[:4096])
else:
    ran = subprocess.run([{program!r}, *words])
if fault == "store":  # stops a store after 1,000,000 bytes
    for name in os.listdir():
        if os.path.isfile(name) and os.stat(name).st_mtime_ns != times.get(name) and os.path.getsize(name) > 1000000:
            os.truncate(name, 1000000)
sys.exit(ran.returncode & 2 if fault == "code" else ran.returncode)  # masks its exit code
"""


def run_tables(program):
    """Returns whether the tables hold for a program, and what was printed."""
    words = [sys.executable, str(TOOLS / "program_cases.py"), program, *map(str, TABLES)]
    ran = subprocess.run(words, stdin=subprocess.DEVNULL, stdout=subprocess.PIPE, stderr=subprocess.STDOUT, text=True)
    return ran.returncode == 0, ran.stdout


def main():
    if len(sys.argv) != 2:
        sys.exit(__doc__)
    status, program = 0, os.path.abspath(sys.argv[1])
    for fault in ["", *FAULTS]:
        with tempfile.TemporaryDirectory() as folder:
            script = pathlib.Path(folder, "program")
            script.write_text(SCRIPT.format(python=sys.executable, fault=fault, program=program), encoding="utf-8")
            script.chmod(0o755)
            holds, text = run_tables(str(script))
        is_right = holds == (not fault)
        print(f"{'ok' if is_right else 'FAILED'} {fault or 'no fault'}: {text.splitlines()[-1]}")
        if not is_right:
            print(text)
            status = 1
    return status


if __name__ == "__main__":
    sys.exit(main())
