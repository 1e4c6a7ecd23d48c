#!/usr/bin/env python3
"""Kills the program at many moments of a store, and looks that the files are whole.

python3 tools/kill_stores.py PROGRAM [COUNT]

Each of COUNT (100) times, three files stand in a folder, `gen` begins to replace them, and is killed: every second time at a moment
of its whole run, and else soon after a file stands beside the one that is replaced. Then each file has its old bytes or all of the
new ones. Whatever is left beside is removed. The last line counts, and the status is 0 only if all files are whole.
"""
import os
import pathlib
import subprocess
import sys
import tempfile
import time

NAMES = ["set", "ledger", "verdicts"]
BESIDE = ".soroban-store-"
# The transactions of the generated set: the files have some MB.
TRANSACTIONS = 20000


def start(program, folder):
    words = ["gen", "--count", str(TRANSACTIONS), "--seed", "1", "--set", NAMES[0], "--ledger", NAMES[1], "--verdicts", NAMES[2]]
    return subprocess.Popen([program, *words], cwd=folder, stdin=subprocess.DEVNULL, stdout=subprocess.DEVNULL)


def files(folder):
    return [(folder / name).read_bytes() for name in NAMES]


def has_beside(folder):
    return any(name.startswith(BESIDE) for name in os.listdir(folder))


def wait_for_store(ran, folder):
    """Waits until a file stands beside, or the program ends."""
    while ran.poll() is None and not has_beside(folder):
        pass


def kill(program, folder, number, count, seconds):
    """Kills one run, and returns whether it had not ended by itself."""
    ran = start(program, folder)
    if number % 2:
        wait_for_store(ran, folder)
        time.sleep(number / count * 0.02)
    else:
        time.sleep(number / count * seconds)
    ran.kill()
    return ran.wait() < 0


def main():
    if len(sys.argv) not in (2, 3):
        sys.exit(__doc__)
    program, count = os.path.abspath(sys.argv[1]), int(sys.argv[2]) if len(sys.argv) == 3 else 100
    killed = replaced = beside = torn = 0
    with tempfile.TemporaryDirectory(prefix="kill-stores-") as place:
        folder = pathlib.Path(place)
        began = time.monotonic()
        if start(program, folder).wait():
            sys.exit("the program fails")
        seconds, new = time.monotonic() - began, files(folder)
        old = [b"old bytes of " + name.encode() for name in NAMES]
        for number in range(count):
            for name, bytes_ in zip(NAMES, old):
                (folder / name).write_bytes(bytes_)
            killed += kill(program, folder, number, count, seconds)
            now = files(folder)
            replaced += sum(bytes_ == whole for bytes_, whole in zip(now, new))
            torn += sum(bytes_ not in (was, whole) for bytes_, was, whole in zip(now, old, new))
            beside += has_beside(folder)
            for name in os.listdir(folder):
                if name.startswith(BESIDE):
                    (folder / name).unlink()
    print(f"{killed} of {count} runs were killed, {beside} with a file beside; {replaced} files were replaced, {torn} are torn")
    return 1 if torn or not killed else 0


if __name__ == "__main__":
    sys.exit(main())
