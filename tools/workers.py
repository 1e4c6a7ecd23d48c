#!/usr/bin/env python3
"""Compares what `apply` does with several numbers of workers: python3 tools/workers.py PROGRAM FOLDER

Each folder right below FOLDER has the files `set`, `ledger` and `verdicts`, and may have `close-time` (a number; 1 more than 2^32
otherwise) and `base64` (then the set is base64 text). The program runs there with 1, 2, 3, 5, 8 and 64 workers. Exit code, printed
text, report and new ledger have to be the same. Prints each folder that differs, and a count.
"""
import pathlib
import subprocess
import sys
import tempfile

NUMBERS = (1, 2, 3, 5, 8, 64)


def run(program, folder, workers):
    """Returns the exit code, the text, the report and the new ledger of one run."""
    time = folder / "close-time"
    close_time = time.read_text(encoding="utf-8").strip() if time.exists() else str(2**32 + 1)
    with tempfile.TemporaryDirectory() as room:
        report, ledger = pathlib.Path(room, "report"), pathlib.Path(room, "ledger")
        words = ["apply", "--set", folder / "set", "--ledger", folder / "ledger", "--verdicts", folder / "verdicts"]
        words += ["--close-time", close_time, "--workers", str(workers), "--report", report, "--ledger-out", ledger]
        words += ["--base64"] if (folder / "base64").exists() else []
        done = subprocess.run([program, *words], stdout=subprocess.PIPE, check=False)
        stored = [path.read_bytes() if path.exists() else None for path in (report, ledger)]
        return [done.returncode, done.stdout, *stored]


def main():
    if len(sys.argv) != 3:
        sys.exit(__doc__)
    program = pathlib.Path(sys.argv[1]).resolve()
    folders = sorted(path for path in pathlib.Path(sys.argv[2]).resolve().iterdir() if path.is_dir())
    differing = 0
    for folder in folders:
        first = run(program, folder, NUMBERS[0])
        others = [number for number in NUMBERS[1:] if run(program, folder, number) != first]
        if others:
            differing += 1
            print(f"{folder}: not as with 1 worker: {', '.join(map(str, others))}")
    print(f"{len(folders)} sets, {differing} differ")
    sys.exit(0 if folders and not differing else 1)


main()
