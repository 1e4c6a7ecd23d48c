#!/usr/bin/env python3
"""Refuses each call of the program for memory, for files and for threads in turn, and judges what it answers and leaves.

python3 tools/refused.py PROGRAM [--most N] [--only WORD] (needs a C compiler; takes minutes, so it is no check of the gate)

A case is a command that ends well. Its calls of one kind are counted, and it runs once for each, which is refused: memory, a
thread, an open, a read, a seek, a write, a sync, a renaming, a close. Then a refusal of memory or of a thread may be answered
by `no memory`, or by what the case answers without one; that of a file by `fault on` its name. Nothing but the names that the
command stores changes, in their order, each whole, but for the one at fault: it holds its old bytes or a prefix of the new
ones, which may be all of them, as when the folder of a new file cannot be synced.

--most N refuses at most so many calls of a kind and a case, evenly chosen; --only WORD takes the cases whose name has the word.
Prints a line for each case and kind with the counts of answers. The status is 1 if an answer was wrong.
"""
import argparse
import collections
import os
import pathlib
import subprocess
import sys
import tempfile

import fuzz_inputs

TOOLS = pathlib.Path(__file__).resolve().parent
DATA = fuzz_inputs.TOP / "crates/command_cases/data"
KINDS = ["memory", "thread", "open", "read", "lseek", "write", "close", "fsync", "rename"]
# The name of a case, its table, and a text of it: the case is the first command behind the text.
CASES = [
    ("an extension", "faults.txt", "## The ledger and the verdicts are read by three calls each"),
    ("a call that fails and is caught", "calls.txt", "## contract 10 calls contract 11 by `try_call`"),
    ("an upload, a create and a call", "calls_auth_creates.txt", "# one cluster: F is uploaded"),
    ("`bump` on 41", "calls.txt", "## `bump` on 41 takes"),
    ("a simulation", "simulate.txt", "## functions and footprints"),
    ("two clusters by three workers", "calls_shared.txt", "# in two clusters, each with both contracts"),
    ("two clusters by a schedule", "schedules.txt", "file order 00000001 00000004 00000000 00000000 00000001"),
    ("a set of one envelope", "build.txt", "## one envelope"),
    ("a set with its log", "log.txt", "## an entry is altered twice by each of two clusters"),
    ("a list of two calls", "list.txt", "# two calls of one contract: the second one runs again"),
    ("three demands are recorded", "record.txt", "# each frame's demand stands below that of its caller"),
    ("an entry is made by a log", "play.txt", "# an entry is made"),
    ("a migration", "migrate.txt", "## version 1 is a ledger"),
    ("a module", "vet.txt", "## `bump`: it reads a number"),
    ("a value", "show.txt", "run {VALUE}"),
]
SECONDS = 100


class Case:
    """A command that ends well: its words, the files that it finds, and the names that it reads and stores, in order."""

    def __init__(self, name, sample):
        self.name, options = name, fuzz_inputs.commands()[sample.command]
        self.words, self.contents, self.stores = [sample.command], {}, []
        for option in options:
            if option not in sample.options and option not in sample.files:
                continue
            value = option if "access" in options[option] else sample.options[option]
            self.words += [f"--{option}"] if value is None else [f"--{option}", value]
            if options[option].get("access") == "store":
                self.stores.append(option)
        self.contents = {**{store: b"old" for store in self.stores}, **sample.files}
        self.reads = list(sample.files)


def cases(only):
    """Yields the cases whose name has a word."""
    known = fuzz_inputs.commands()
    for name, table, text in CASES:
        if only not in name:
            continue
        whole = (DATA / table).read_text(encoding="utf-8")
        end = whole.index("\nrun ", whole.index(text) - 1)
        after = whole.find("\n", end + 1)
        *_, sample = fuzz_inputs.samples_of(DATA / table, known, whole[:after])
        yield Case(name, sample)
    if only in "gen":
        options = {"count": "20", "seed": "0", "set": "", "ledger": "", "verdicts": ""}
        yield Case("gen of 20", fuzz_inputs.Sample("gen", options, {}))


class Runner:
    """Runs a case with a refused call in a folder."""

    def __init__(self, program, library, folder):
        self.program, self.library, self.folder = program, library, folder

    def run(self, case, kind, at):
        """Returns the code, the output, the files that are left, and how many calls of the kind there were."""
        place, count = self.folder / "files", self.folder / "count"
        place.mkdir(exist_ok=True)
        for old in [*place.iterdir(), count]:
            if old.exists():
                old.unlink()
        for name, content in case.contents.items():
            (place / name).write_bytes(content)
        env = {**os.environ, "LD_PRELOAD": self.library, "REFUSE": kind, "REFUSE_AT": str(at), "REFUSE_COUNT": str(count)}
        ran = subprocess.run([self.program, *case.words], cwd=place, env=env, stdin=subprocess.DEVNULL, stdout=subprocess.PIPE,
                             stderr=subprocess.PIPE, timeout=SECONDS)  # fmt: skip
        calls = int(count.read_text()) if count.exists() else 0
        return ran.returncode, ran.stdout, {it.name: it.read_bytes() for it in place.iterdir()}, calls


def judged(case, kind, good, came):
    """Returns the name of a right answer, or None."""
    (_, lines, made, _), (code, said, files, _) = good, came
    if (code, said, files) == (0, lines, made) and kind in ("memory", "thread", "close"):
        return "done"
    whole = 0
    while whole < len(case.stores) and files.get(case.stores[whole]) == made[case.stores[whole]]:
        whole += 1
    # Behind the names that are stored, all is as it was, but for a name that may be at fault.
    others = {*files, *case.contents}.difference(case.stores[:whole])
    torn = [name for name in others if files.get(name) != case.contents.get(name)]
    if kind in ("memory", "thread") and code == 5 and not torn:
        is_line = said == b"no memory\n" or (whole == len(case.stores) and lines.startswith(said))
        return f"no memory, {whole} stored" if is_line else None
    if code != 4 or kind in ("memory", "thread"):
        return None
    if said == b"" or (lines.startswith(said) and said != lines):
        return "fault on the output" if whole == len(case.stores) and not torn else None
    name = said.decode()[len("fault on ") : -1]
    if said != f"fault on {name}\n".encode():
        return None
    if name in case.reads:
        return "fault on a file that is read" if not whole and not torn else None
    return "fault on a file that is stored" if name in case.stores and is_stored_up_to(case, name, made, files) else None


def is_stored_up_to(case, name, made, files):
    """Whether the files that are stored before a name are whole, the name has its old bytes or a beginning of the new ones, which
    may be all of them, and nothing else has changed."""
    before = case.stores[: case.stores.index(name)]
    others = {*files, *case.contents}.difference(before, [name])
    is_right = files.get(name) == case.contents.get(name) or made[name].startswith(files.get(name, b""))
    return is_right and all(files.get(it) == made[it] for it in before) and all(files.get(it) == case.contents.get(it) for it in others)


def try_case(runner, case, most):
    """Refuses the calls of a case. Prints a line for each kind. Returns how many were refused and answered wrong."""
    good = runner.run(case, "memory", 0)
    if good[0]:
        print(f"{case.name}: it ends with {good[0]}: {good[1]!r}")
        return 0, 1
    refused = wrong = 0
    for kind in KINDS:
        calls = runner.run(case, kind, 0)[3]
        counts = collections.Counter()
        for at in range(1, calls + 1, max(1, calls // most)):
            came = runner.run(case, kind, at)
            answer = judged(case, kind, good, came)
            if answer is None:
                wrong += 1
                lengths = {name: len(content) for name, content in came[2].items() if content != case.contents.get(name)}
                print(f"{case.name}, {kind} {at}: WRONG: code {came[0]}, {came[1]!r}, changed {lengths}")
            counts[answer or "WRONG"] += 1
        refused += sum(counts.values())
        if counts:
            answers = ", ".join(f"{count} {name}" for name, count in sorted(counts.items()))
            print(f"{case.name}, {kind}: {calls} calls; {answers}", flush=True)
    return refused, wrong


def options():
    parser = argparse.ArgumentParser(description=__doc__.split("\n\n")[0])
    parser.add_argument("program", type=os.path.abspath)
    parser.add_argument("--most", type=int, default=1 << 30, metavar="N", help="how many calls of a kind and a case are refused")
    parser.add_argument("--only", default="", metavar="WORD", help="the cases whose name has this word")
    return parser.parse_args()


def main():
    given = options()
    with tempfile.TemporaryDirectory(prefix="refused-") as folder:
        library = os.path.join(folder, "refused.so")
        subprocess.run(["cc", "-shared", "-fPIC", "-O1", "-o", library, str(TOOLS / "refused.c"), "-ldl"], check=True)
        runner = Runner(given.program, library, pathlib.Path(folder))
        sums = [try_case(runner, case, given.most) for case in cases(given.only)]
    refused, wrong = (sum(column) for column in zip(*sums))
    print(f"{refused} refused calls of {len(sums)} cases, {wrong} wrong answers")
    return 1 if wrong or not refused else 0


if __name__ == "__main__":
    sys.exit(main())
