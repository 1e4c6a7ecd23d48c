#!/usr/bin/env python3
"""Runs the program on inputs that are changed by chance, and judges all that it answers.

python3 tools/fuzz.py PROGRAM [--count N] [--seed N] [--first INDEX] [--only COMMAND] [--keep FOLDER] ..

An input is a command with its files. The files are those of the tables of cases and of generated sets, with words, bits and
counts changed, cut, spliced, doubled and nested; codes are also changed together with their hashes. Each input is decided by the
seed, its index and the tables, so a run can be repeated, and one input with --first INDEX --count 1.

An answer is right if its exit code and its output are an answer of this command to such words, if it comes within the bounds of
time and memory, and if exactly the names are stored that the code promises: none at a refusal. What is read is read by the
package of python/ too, if it is there: the program has to refuse the same file at the same offset for the same reason. The hashes
that `apply` prints have to be those of what it stored, and another number of workers may change nothing.

Every wrong answer is kept in the folder of --keep, with its files and its command line. The last lines count the answers of each
command. The status is 1 if an answer was wrong.
"""
import argparse
import collections
import hashlib
import os
import pathlib
import re
import resource
import shlex
import shutil
import signal
import subprocess
import sys
import tempfile

from fuzz_inputs import TABLES, TOP, Inputs

sys.path.append(str(TOP / "python"))
try:
    import soroban_files as reader
    from soroban_files import ledgers
    from soroban_files.files import NotBase64, from_base64
except ImportError:
    reader = None

MIB = 1 << 20
HASH = "[0-9a-f]{64}"
SET_LINE = r"(24|25|26|none) -?\d+\n"
# What a command says when it is done.
DONE = {
    "apply": rf"ledger \d+: \d+ transactions, \d+ succeeded, \d+ failed\nreport {HASH}\nledger {HASH}\n",
    "apply-list": rf"ledger \d+: \d+ transactions, \d+ succeeded, \d+ failed\nreport {HASH}\nledger {HASH}\nkept \d+ of \d+\n",
    "simulate": r"result -?\d+ (-?\d+|-)\nused \d+ instructions, \d+ memory\nfootprint \d+ read-only, \d+ read-write\n",
    "record": r"entries \d+\ncaught [01]\n",
    "show set": rf"(\d+ \d+ \d+ {SET_LINE})*",
    "show envelope": rf"0 0 0 {SET_LINE}",
    "show ledger": rf"seq \d+ time \d+ records \d+\n({HASH} \d+\n)*",
    "show value": r"type \d+ size \d+ depth \d+\n",
    "vet": r"valid: \d+ functions, \d+ imports, \d+ exports, \d+ pages\n",
    "migrate": r"migrated \d+ records\n",
    "gen": r"made \d+ transactions in \d+ stages\n",
    "build": r"built \d+ transactions in \d+ stages, \d+ clusters\n",
    "play": r"played \d+ stages\n",
}
# The other answers: the exit code, what the line is called, the line, and the kinds of files or options that it needs.
READABLE = {"set", "envelope", "value", "list", "log"}
ANSWERS = [
    (1, "refused", r"refused at \d+: (end|padding|bool|tag|limit|depth|trailing)\n", READABLE),
    (1, "not base64", r"not base64: \S+\n", {"base64"}),
    (1, "conflict", r"conflict: stage \d+, clusters \d+ and \d+, key ([0-9a-f]{2})+\n", {"apply"}),
    (1, "not a module", r"not a module\n", {"module"}),
    (1, "ill typed", r"ill typed: (module|function \d+)\n", {"module"}),
    (1, "unlinked", r"unlinked: import \d+\n", {"module"}),
    (2, "usage", r"usage\n", {"wrong words"}),
    (3, "ledger refused", r"ledger refused: [1-6] at \d+\n", {"ledger"}),
    (3, "verdicts refused", r"verdicts refused at \d+\n", {"verdicts"}),
    (3, "schedule refused", r"schedule refused at \d+\n", {"schedule"}),
    (4, "fault", r"fault on \S+\n", {"missing"}),
    (7, "not complete", r"schedule not complete: stage \d+\n", {"schedule"}),
    (8, "does not fit", r"log does not fit: (header|stage \d+, place \d+)\n", {"log"}),
]
# The order in which commands read their files.
ORDERS = {
    "apply": ["ledger", "verdicts", "set", "schedule"],
    "simulate": ["ledger", "verdicts", "tx"],
    "show": ["file"],
    "vet": ["module"],
    "migrate": ["ledger"],
    "gen": [],
    "build": ["list"],
    "play": ["ledger", "log"],
    "apply-list": ["ledger", "verdicts", "list"],
    "record": ["ledger", "tx"],
}
# The commands whose ledger has to be one that another can follow, besides `play` forwards.
FOLLOWED = {"apply", "simulate", "apply-list", "record"}


class Answer:
    """What a command left: its exit code, its output, its errors, the changed files, and what it took."""

    def __init__(self, code, said, complained, changed, is_late, memory):
        self.code, self.said, self.complained, self.changed = code, said, complained, changed
        self.is_late, self.memory = is_late, memory


class Runner:
    """Runs commands, each in a folder of its own within bounds of time and memory."""

    def __init__(self, program, seconds, folder):
        self.program, self.seconds, self.folder = program, seconds, folder
        self.output, self.errors = (open(folder / name, "w+b") for name in ("output", "errors"))
        self.place = folder / "files"

    def run(self, words, contents):
        """Returns the answer to a command that finds these contents."""
        shutil.rmtree(self.place, ignore_errors=True)
        self.place.mkdir()
        for name, content in contents.items():
            (self.place / name).write_bytes(content)
        for file in (self.output, self.errors):
            file.seek(0)
            file.truncate()
        code, is_late, memory = self.wait([self.program, *words])
        said, complained = (pathlib.Path(file.name).read_bytes() for file in (self.output, self.errors))
        return Answer(code, said, complained, self.changes(contents), is_late, memory)

    def wait(self, words):
        """Runs the words, and ends all that they started after the time. Returns the code, whether it was late, and MiB."""
        process = subprocess.Popen(words, cwd=self.place, stdin=subprocess.DEVNULL, stdout=self.output, stderr=self.errors,
                                   start_new_session=True)  # fmt: skip
        late = []

        def end(*_):
            late.append(True)
            os.killpg(process.pid, signal.SIGKILL)

        signal.signal(signal.SIGALRM, end)
        signal.setitimer(signal.ITIMER_REAL, self.seconds)
        _, status, usage = os.wait4(process.pid, 0)
        signal.setitimer(signal.ITIMER_REAL, 0)
        process.returncode = -os.WTERMSIG(status) if os.WIFSIGNALED(status) else os.WEXITSTATUS(status)
        return process.returncode, bool(late), usage.ru_maxrss // 1024

    def changes(self, contents):
        """Returns the names at which something else stands than was put there, each with its bytes, or None."""
        now = {it.name: it.read_bytes() if it.is_file() else None for it in self.place.iterdir()}
        return {name: now.get(name) for name in {*now, *contents} if now.get(name) != contents.get(name)}


# ---- what is right


def name_of_answer(made, answer):
    """Returns the name of an answer if it is one to this command and these words, else None."""
    said = answer.said.decode("utf-8", "replace")
    missing = any(name not in made.contents for name in made.reads)
    needs = {made.command, *made.options, *made.reads.values(), *(["missing"] if missing else [])}
    needs |= set() if made.are_words_right else {"wrong words"}
    if made.command == "show" and made.reads["file"] == "ledger":
        needs -= READABLE
    for code, name, line, any_of in ANSWERS:
        if code == answer.code and any_of & needs and re.fullmatch(line, said):
            return name
    kind = f"show {made.options.get('kind')}" if made.command == "show" else made.command
    return "done" if answer.code == 0 and made.are_words_right and re.fullmatch(DONE.get(kind, ".*"), said, re.S) else None


def right_files(made, answer):
    """Yields what is wrong with the files that an answer left."""
    if answer.code == 0:
        for name in made.stores:
            if answer.changed.get(name) is None and (made.contents.get(name) is None or name in answer.changed):
                yield f"{name} is not stored"
        allowed = set(made.stores)
    else:
        allowed = set()
    for name in sorted(set(answer.changed) - allowed):
        yield f"the code is {answer.code}, and {name} is changed"


def right_hashes(made, answer):
    """Yields what is wrong with the sums and hashes that `apply` prints."""
    if answer.code or not made.command.startswith("apply"):
        return
    said = answer.said.decode()
    for word, name in (("report", "report"), ("ledger", "ledger-out")):
        digest = hashlib.sha256(answer.changed.get(name, made.contents.get(name)) or b"").hexdigest()
        if f"\n{word} {digest}\n" not in said:
            yield f"the hash of {name} is {digest}"
    found = re.match(r"ledger \d+: (\d+) transactions, (\d+) succeeded, (\d+) failed\n", said)
    if found and int(found[1]) != int(found[2]) + int(found[3]):
        yield "the transactions are not those that succeeded and those that failed"


def refusal_of(made, name):
    """Returns the code and the line of the first refusal of a file that is read, as python/ reads it, or None."""
    kind, content = made.reads[name], made.contents.get(name)
    if content is None:
        return 4, f"fault on {name}\n"
    try:
        if "base64" in made.options and name == ("set" if made.command == "apply" else next(iter(made.reads))):
            content = from_base64(content)
        if kind == "ledger":
            ledgers.read(content, follows=made.command in FOLLOWED or made.options.get("back") == "0")
        elif kind != "module":
            reader.decode(kind, content)
    except NotBase64:
        return 1, f"not base64: {name}\n"
    except reader.LedgerRefusal as refusal:
        return 3, f"ledger refused: {refusal.number} at {refusal.at}\n"
    except reader.Refusal as refusal:
        if kind in ("verdicts", "schedule"):
            return 3, f"{kind} refused at {refusal.at}\n"
        return 1, f"refused at {refusal.at}: {refusal.why}\n"
    return None


def right_refusal(made, answer, name):
    """Yields what python/ says of the first file that is refused, if the program says something else."""
    if reader is None or not made.are_words_right or made.command not in ORDERS:
        return
    refusals = (refusal_of(made, it) for it in ORDERS[made.command] if it in made.reads)
    first = next((it for it in refusals if it), None)
    if first and first != (answer.code, answer.said.decode("utf-8", "replace")):
        yield f"python/ says {first[1].strip()}"
    if not first and name in ("refused", "not base64", "ledger refused", "verdicts refused", "schedule refused", "fault"):
        yield "python/ reads all files"


def faults_of(made, answer, name, memory):
    """Yields all that is wrong with an answer."""
    if answer.is_late:
        yield "it did not end in time"
        return
    if answer.code < 0:
        yield f"ended by the signal {-answer.code}"
    elif name is None:
        yield f"the code {answer.code} and this line are no answer to this command"
    if answer.complained and answer.code != 4:
        yield "it complains on the standard error"
    if answer.memory > memory:
        yield f"it took {answer.memory} MiB"
    yield from right_files(made, answer)
    yield from right_hashes(made, answer)
    yield from right_refusal(made, answer, name)


def with_workers(words):
    """Returns the words with another number of workers, or None if the command has none."""
    if b"--workers" not in words:
        return None
    at = words.index(b"--workers") + 1
    return [*words[:at], b"1" if words[at] != b"1" else b"4", *words[at + 1 :]]


# ---- the run


class Fuzz:
    """A run over the inputs of a seed, and what came of it."""

    def __init__(self, given, runner):
        self.given, self.runner = given, runner
        self.inputs = Inputs(given.seed, TABLES, given.only)
        self.counts, self.findings = collections.Counter(), 0

    def try_input(self, index):
        """Runs an input, and keeps it if an answer is wrong."""
        made = self.inputs.input(index)
        answer = self.runner.run(made.words, made.contents)
        name = name_of_answer(made, answer)
        faults = list(faults_of(made, answer, name, self.given.memory))
        self.counts[made.command if made.are_words_right else "wrong words", answer.code, name or "WRONG"] += 1
        other = with_workers(made.words)
        if not faults and name == "done" and other and index % 4 == 0:
            again = self.runner.run(other, made.contents)
            if (again.code, again.said, again.changed) != (answer.code, answer.said, answer.changed):
                faults.append("with another number of workers the answer is another")
        if faults:
            self.findings += 1
            self.keep(index, made, answer, faults)

    def keep(self, index, made, answer, faults):
        """Prints a finding, and keeps its files, its command line and its answer."""
        line = shlex.join([os.path.basename(self.given.program), *(os.fsdecode(word) for word in made.words)])
        said = answer.said[:400].decode("utf-8", "replace")
        complained = answer.complained[:400].decode("utf-8", "replace")
        text = "\n".join([*faults, f"came the code {answer.code}", f"  {said!r}", f"  {complained!r}"])
        print(f"input {index}: {'; '.join(faults)}", f"  {line}", sep="\n", flush=True)
        if self.given.keep:
            folder = pathlib.Path(self.given.keep, f"{self.given.seed}-{index}")
            shutil.rmtree(folder, ignore_errors=True)
            (folder / "files").mkdir(parents=True)
            for name, content in made.contents.items():
                (folder / "files" / name).write_bytes(content)
            (folder / "command").write_text(line + "\n", encoding="utf-8", errors="surrogateescape")
            (folder / "answer").write_text(text + "\n", encoding="utf-8")

    def run(self):
        given = self.given
        for index in range(given.first, given.first + given.count):
            self.try_input(index)
            if self.findings >= given.most:
                print(f"stopped after {index + 1 - given.first} inputs")
                break
        for (command, code, name), count in sorted(self.counts.items()):
            print(f"{command} {code} {name}: {count}")
        print(f"{sum(self.counts.values())} inputs of seed {given.seed}, {self.findings} wrong answers")
        return 1 if self.findings else 0


def options():
    parser = argparse.ArgumentParser(description=__doc__.split("\n\n")[0])
    parser.add_argument("program", type=os.path.abspath)
    parser.add_argument("--count", type=int, default=1000, help="how many inputs (1000)")
    parser.add_argument("--seed", type=int, default=1, help="decides the inputs (1)")
    parser.add_argument("--first", type=int, default=0, metavar="INDEX", help="the index of the first input (0)")
    parser.add_argument("--only", action="append", metavar="COMMAND", help="inputs of this command alone; may be given again")
    parser.add_argument("--keep", metavar="FOLDER", help="where wrong answers are kept")
    parser.add_argument("--most", type=int, default=100, metavar="N", help="stops after so many wrong answers (100)")
    parser.add_argument("--seconds", type=float, default=60, help="the time of a command (60)")
    parser.add_argument("--memory", type=int, default=512, metavar="MIB", help="the memory that a command may fill (512)")
    parser.add_argument("--is-checked", action="store_true", help="the program takes a large address space for its own checks")
    return parser.parse_args()


def main():
    given = options()
    if not given.is_checked:
        bound = 16 * given.memory * MIB
        resource.setrlimit(resource.RLIMIT_AS, (bound, resource.getrlimit(resource.RLIMIT_AS)[1]))
    resource.setrlimit(resource.RLIMIT_CORE, (0, 0))
    with tempfile.TemporaryDirectory(prefix="fuzz-") as folder:
        return Fuzz(given, Runner(given.program, given.seconds, pathlib.Path(folder))).run()


if __name__ == "__main__":
    sys.exit(main())
