#!/usr/bin/env python3
"""Runs the commands of tables with the real program over real files, and compares all that they leave.

python3 tools/program_cases.py PROGRAM TABLE..

docs/CASES.md has the form of a table. Of each command the exit code, every byte of the output, and every file in its folder
are compared with the expected outcome. At a fault the standard error has the name of the file and a reason, else it is empty.
A set that is read in pieces comes through a pipe. Cases with failing calls are left out: no real file fails at a chosen call. So
are cases whose clusters meet: the program's gate lets all through. Prints each case that fails. The last line counts, and the
status is 0 only if there are cases and all hold.
"""
import contextlib
import ctypes
import os
import pathlib
import re
import resource
import shutil
import signal
import subprocess
import sys
import tempfile
import threading

import program_files
from case_bytes import spelled, without_remark

SECONDS = 100
# The size of a file that is too long.
LONG = (1 << 30) + 1
# A file of this size or more is not read. It counts as the same if its size and its time are.
TOO_LONG = 1 << 28
HASHED = re.compile(r"\d+ bytes, SHA-256 [0-9a-f]{64}")
# By prctl(2) and capabilities(7): a process gives up the rights by which root reads and writes files against their modes.
DROP_RIGHT, RIGHTS_OF_ROOT = 24, (1, 2)
# The longest text of a case that fails, in characters, and the longest output, in lines, that is printed whole.
WIDEST, LONGEST = 400, 12


class Unclear(Exception):
    """A line that is not understood."""


def blocks(text):
    """Yields the number of each line that begins a block, the line, and the indented lines below it."""
    found = []
    for number, line in enumerate(text.split("\n"), 1):
        if line.startswith("  "):
            found[-1][2].append(line[2:])
        elif line and not line.startswith("#"):
            found.append((number, line, []))
    return found


def words_of(names, text):
    """Returns the words of a command as bytes."""
    words = []
    for part in text.split(" ") if text else []:
        if part.startswith("{"):
            words += spelled(names, part).split(b" ")
        else:
            words.append(b"" if part == "''" else part.encode())
    return words


def with_digits(names, text):
    """Returns a text of an expected outcome with hex digits in place of the names in braces."""
    return re.sub(r"{[^}]*}", lambda it: spelled(names, it[0]).hex(), text)


def hex_file(path):
    """Returns the bytes of a file of hex digits, in which # begins a remark."""
    lines = path.read_text(encoding="utf-8").split("\n")
    return bytes.fromhex("".join(line.partition("#")[0] for line in lines))


def feed(pipe, bytes_, most):
    """Writes bytes to a pipe, so many by a call. Ends early if nobody reads them."""
    try:
        with open(pipe, "wb", buffering=0) as file:
            for at in range(0, len(bytes_), most):
                file.write(bytes_[at : at + most])
    except BrokenPipeError:
        pass


@contextlib.contextmanager
def piped(path, most):
    """While this lasts, the bytes of a file come through a pipe, and each read brings at most so many. Yields what the program's
    process has to inherit."""
    bytes_ = path.read_bytes()
    # A read of such a pipe brings what one call wrote, at most 4,096 bytes.
    end, start = os.pipe2(os.O_DIRECT)
    path.unlink()
    path.symlink_to(f"/dev/fd/{end}")
    feeder = threading.Thread(target=feed, args=(start, bytes_, most))
    feeder.start()
    try:
        yield (end,)
    finally:
        os.close(end)
        feeder.join()
        path.unlink()
        path.write_bytes(bytes_)


def content(path):
    """Returns what stands at a path: bytes, or a text that says what else it is."""
    if path.is_symlink():
        return "a link to " + os.readlink(path)
    if path.is_dir():
        return "a folder"
    about = path.stat()
    return path.read_bytes() if about.st_size < TOO_LONG else f"{about.st_size} bytes of {about.st_mtime_ns}"


class Folder:
    """The folder in which a table's commands run. Links, folders and files are known by their names in it."""

    def __init__(self, path):
        self.path = path
        self.known = self.look()
        # The modes that were set, by name.
        self.modes = {}

    def look(self):
        """Returns all that stands in the folder, by name."""
        found = {}
        for at, folders, files in os.walk(self.path):
            for name in folders + files:
                path = pathlib.Path(at, name)
                found[path.relative_to(self.path).as_posix()] = content(path)
        return found

    def place(self, name):
        """Returns the path of a name, at which nothing stands now."""
        path = self.path / name
        if path.is_dir() and not path.is_symlink():
            shutil.rmtree(path)
        elif os.path.lexists(path):
            path.unlink()
        path.parent.mkdir(parents=True, exist_ok=True)
        self.known.pop(name, None)
        self.modes.pop(name, None)
        return path

    def put(self, name, bytes_):
        self.place(name).write_bytes(bytes_)
        self.known[name] = bytes_

    def set_mode(self, name, mode):
        (self.path / name).chmod(mode)
        self.modes[name] = mode

    def other_modes(self):
        """Returns lines about the names whose mode is no longer the one that was set."""
        now = {name: (self.path / name).stat().st_mode & 0o7777 for name in self.modes if (self.path / name).exists()}
        return [f"expected {name} with the mode {mode:o}" for name, mode in self.modes.items() if now.get(name) != mode]

    def put_other(self, kind, name, rest):
        """Puts there what is no file with bytes."""
        path = self.place(name)
        if kind == "folder":
            path.mkdir()
        elif kind == "link":
            path.symlink_to(rest)
        elif kind == "twin":
            path.hardlink_to(self.path / rest)
        else:
            with open(path, "wb") as file:
                file.truncate(int(rest or LONG))
        self.known[name] = content(path)

    def changes(self):
        """Returns the names at which something else stands than is known, each with what stands there now, or None."""
        now = self.look()
        return {name: now.get(name) for name in [*now, *self.known] if now.get(name) != self.known.get(name)}

    def undo(self, changes):
        for name in changes:
            old, mode = self.known.get(name), self.modes.get(name)
            self.place(name)
            if isinstance(old, bytes):
                self.put(name, old)
            if mode is not None:
                self.set_mode(name, mode)


class Outcome:
    """What a command left: its exit code, its output, the changed files in the order of the command's words, and its reasons.

    The reasons are the lines of the standard error. Of an expected outcome they are None if only the faulty name is known.
    """

    def __init__(self, code, said, stored, reasons, faulty=""):
        self.code, self.said, self.stored, self.reasons, self.faulty = code, said, stored, reasons, faulty

    def differs(self, expected):
        """Returns what differs from the expected outcome: lines that say what was expected and what came."""
        lines = []
        if self.code != expected.code:
            lines += [f"expected the exit code {expected.code}", f"came     {self.code}"]
        if self.said != expected.said:
            at = first_difference(expected.said, self.said)
            lines += [f"expected {len(expected.said)} bytes of output, and came {len(self.said)}. They differ from byte {at} on"]
            lines += [f"expected {shown(expected.said[at:])}", f"came     {shown(self.said[at:])}"]
        if not self.gives_reasons(expected):
            wanted = [f"{expected.faulty}: .." if expected.faulty else "none"] if expected.reasons is None else expected.reasons
            lines += [f"expected the reasons {'; '.join(wanted)}", f"came     {'; '.join(self.reasons) or 'none'}"]
        names, wanted = [name for name, _ in self.stored], [name for name, _ in expected.stored]
        if names != wanted:
            return lines + [f"expected stores of {', '.join(wanted) or 'nothing'}", f"came     {', '.join(names) or 'none'}"]
        for (name, came), (_, want) in zip(self.stored, expected.stored):
            lines += stored_differs(name, came, want)
        return lines

    def gives_reasons(self, expected):
        if expected.reasons is not None or not expected.faulty:
            return self.reasons == (expected.reasons or [])
        return len(self.reasons) == 1 and self.reasons[0].startswith(expected.faulty + ": ")


def stored_differs(name, came, want):
    """Returns lines about a stored file, and none if it is the expected one. `want` has its bytes, or the text of its hash."""
    if isinstance(came, bytes) and isinstance(want, str):
        came = program_files.hashed(came)
    if came == want:
        return []
    if isinstance(came, bytes) and isinstance(want, bytes):
        at = first_difference(want, came)
        return [
            f"expected {name} with {len(want)} bytes, and came {len(came)}. They differ from byte {at} on",
            f"expected {want[at : at + 40].hex()}",
            f"came     {came[at : at + 40].hex()}",
        ]
    return [f"expected {name} as {want}", f"came     {came}"]


def first_difference(one, other):
    return next((at for at, (a, b) in enumerate(zip(one, other)) if a != b), min(len(one), len(other)))


def shown(said):
    """Returns a text that shows the beginning of an output."""
    return repr(said[:WIDEST].decode("utf-8", "replace"))


def expected_outcome(names, lines):
    """Returns the outcome that the lines of a case spell."""
    found = re.fullmatch(r"(\d+)(?: (.*))?", lines[0])
    if not found:
        raise Unclear("an exit code")
    code, rest = int(found[1]), found[2]
    # At a fault, the name of the faulty file stands in quotes. A program says it in its line alone.
    quoted = re.match(r"'([^']*)'(?: |$)", rest) if rest and code == 4 else None
    faulty, rest = (quoted[1], rest[quoted.end() :]) if quoted else ("", rest)
    # The tables of soroban_why have no quotes: its line alone names the file.
    if code == 4 and rest and not quoted and rest.startswith("fault on "):
        faulty = rest[len("fault on ") :]
    said, stored, reasons = b"", [], None
    for line in [rest, *lines[1:]] if rest else lines[1:]:
        word, _, more = line.partition(" ")
        if word == "stores":
            name, _, text = more.partition(" ")
            stored.append((name, text if HASHED.fullmatch(text) else spelled(names, text)))
        elif word == "removes":
            stored.append((more, None))
        elif word == "reason":
            reasons = [*(reasons or []), more]
        elif word == "prints":
            said += names[more]
        else:
            said += with_digits(names, line).encode() + b"\n"
    return Outcome(code, said[:-6] if said.endswith(b"[cut]\n") else said, stored, reasons, faulty)


def spelled_outcome(names, lines):
    """Returns the outcome of a case `said`: an exit code, and the bytes of what is said."""
    code, _, digits = lines[0].partition(" ")
    return Outcome(int(code), spelled(names, digits), [], [])


class Table:
    """A table that is run: the names of bytes, the folder, and what the next command finds besides files."""

    def __init__(self, program, file, folder):
        self.program, self.data, self.names = program, file.parent, {}
        self.folder = Folder(folder)
        self.stays = False
        self.held = self.failed = self.left_out = 0
        self.forget()

    def forget(self):
        """What a line says of the next command alone."""
        self.fails, self.keeps, self.output, self.memory = False, False, None, None
        self.size, self.input, self.is_plain, self.piece = None, None, False, None

    def define(self, kind, rest, below):
        name, _, text = (rest if kind == "text" else without_remark(rest)).partition(" ")
        if kind == "text":
            self.names[name] = text.encode()
        elif kind == "made":
            maker, *words = text.split(" ")
            self.names[name] = getattr(program_files, maker)(*words)
        else:
            self.names[name] = b"".join(spelled(self.names, without_remark(it)) for it in [text, *below])

    def prepare(self, kind, rest):
        """A line that prepares what the next commands find."""
        name, _, more = rest.partition(" ")
        if kind == "file":
            self.folder.put(name, spelled(self.names, more))
        elif kind == "hex":
            self.folder.put(name, hex_file(self.data / more))
        elif kind == "copy":
            self.folder.put(name, (self.data / more).read_bytes())
        elif kind in ("long", "sparse", "folder", "link", "twin"):
            self.folder.put_other(kind, name, more)
        elif kind == "mode":
            self.folder.set_mode(name, int(more, 8))
        elif kind == "no":
            self.folder.place(name)
        elif kind == "use":
            self.use(name)
        elif kind in ("fail", "meet", "miss"):
            self.fails = True
        elif kind == "pieces":
            self.piece = int(name)
        elif kind == "keep":
            self.keeps = True
        elif kind == "output":
            self.output = name
        elif kind == "memory":
            self.memory = int(name)
        elif kind == "size":
            self.size = int(name)
        elif kind == "plain":
            self.is_plain = True
        elif kind == "input":
            self.input = spelled(self.names, rest)
        else:
            raise Unclear("a kind of case")

    def use(self, place):
        """Begins anew. Files on disk stay as a command left them, beside the folders that stand beside the table."""
        self.stays = place == "disk"
        for name in list(self.folder.known):
            self.folder.place(name)
        for path in self.data.iterdir():
            if self.stays and path.is_dir():
                shutil.copytree(path, self.folder.path / path.name)
        self.folder.known = self.folder.look()

    def limit(self):
        """What the program's process may take and do."""
        if self.memory:
            resource.setrlimit(resource.RLIMIT_AS, (self.memory, self.memory))
        if self.size is not None:
            signal.signal(signal.SIGXFSZ, signal.SIG_IGN)
            resource.setrlimit(resource.RLIMIT_FSIZE, (self.size, self.size))
        if self.is_plain and os.geteuid() == 0:
            for right in RIGHTS_OF_ROOT:
                ctypes.CDLL(None).prctl(DROP_RIGHT, right, 0, 0, 0)

    def in_pieces(self, words):
        """While this lasts, the set of the words comes through a pipe if the command is to read it in pieces."""
        if self.piece is None:
            return contextlib.nullcontext(())
        return piped(self.folder.path / words[words.index(b"--set") + 1].decode(), self.piece)

    def start(self, words):
        """Runs the program, and returns its exit code, its output and its reasons."""
        how = {"cwd": self.folder.path, "stderr": subprocess.PIPE, "timeout": SECONDS, "preexec_fn": self.limit}
        how.update({"stdin": subprocess.DEVNULL} if self.input is None else {"input": self.input})
        with self.in_pieces(words) as pipes, open(self.output or os.devnull, "wb") as output:
            how["pass_fds"] = pipes
            ran = subprocess.run([self.program, *words], stdout=output if self.output else subprocess.PIPE, **how)
        return ran.returncode, ran.stdout or b"", ran.stderr.decode("utf-8", "replace").splitlines()

    def run(self, words):
        """Runs a command, and returns its outcome, and lines about modes that it changed."""
        code, said, reasons = self.start(words)
        changes, modes = self.folder.changes(), self.folder.other_modes()
        order = [word.decode("utf-8", "replace").partition("=")[2] or word.decode("utf-8", "replace") for word in words]
        order = [name for name in dict.fromkeys(order) if name in changes]
        stored = [(name, changes[name]) for name in [*order, *sorted(set(changes) - set(order))]]
        if self.stays or self.keeps:
            self.folder.known.update(changes)
        else:
            self.folder.undo(changes)
        return Outcome(code, said, stored, reasons), modes

    def judge(self, line, below):
        """Runs a command and compares its outcome. Returns lines that say what differs."""
        case, arrow, outcome = without_remark(line).partition(" => ")
        kind, _, rest = case.partition(" ")
        expected = ([outcome] if arrow else []) + [without_remark(it) for it in below]
        if kind not in ("run", "why", "said"):
            if expected:
                raise Unclear("a case that has an outcome")
            self.prepare(kind, rest)
            return []
        if not expected:
            raise Unclear("an expected outcome")
        if self.fails:
            self.left_out += 1
            return []
        outcome, modes = self.run(words_of(self.names, rest))
        wanted = (spelled_outcome if kind == "said" else expected_outcome)(self.names, expected)
        lines = outcome.differs(wanted) + modes
        self.held += not lines
        return lines

    def do(self, line, below):
        kind, _, rest = line.partition(" ")
        if kind in ("let", "text", "made"):
            self.define(kind, rest, below)
            return []
        lines = self.judge(line, below)
        if kind in ("run", "why", "said"):
            self.forget()
        return lines


def run_table(program, file):
    """Runs the commands of a table. Prints those that fail. Returns how many held, failed and were left out."""
    with tempfile.TemporaryDirectory(prefix="program-cases-") as folder:
        table = Table(program, file, pathlib.Path(folder))
        for number, line, below in blocks(file.read_text(encoding="utf-8")):
            try:
                lines = table.do(line, below)
            except Unclear as lack:
                lines = [f"a line that lacks {lack}"]
            except (KeyError, ValueError, AttributeError, OSError, subprocess.TimeoutExpired) as error:
                lines = [f"{type(error).__name__}: {error}"]
            if lines:
                if not table.failed:
                    print(f"in {file}")
                table.failed += 1
                print(f"{number}: {line[:WIDEST]}", *(f"  {it[: 3 * WIDEST]}" for it in lines[:LONGEST]), sep="\n")
        return table.held, table.failed, table.left_out


def main():
    if len(sys.argv) < 3:
        sys.exit(__doc__)
    program = os.path.abspath(sys.argv[1])
    counts = [run_table(program, pathlib.Path(file)) for file in sys.argv[2:]]
    held, failed, left_out = (sum(column) for column in zip(*counts))
    print(f"{held} commands do what their cases say, {failed} lines fail, {left_out} cases with failing calls or a gate are left out")
    return 0 if held and not failed else 1


if __name__ == "__main__":
    sys.exit(main())
