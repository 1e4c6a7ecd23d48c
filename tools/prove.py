#!/usr/bin/env python3
"""Proves and builds a crate and all crates that it stands on, side by side, and says how far it is.

python3 tools/prove.py NAME [WORKERS]

A crate is proved once all crates that it stands on are. A program is also run, and has to print what its file stdout holds.
What is built comes into the crate's out/, and is taken as it is from then on.

A program is proved by `rt ci` where the kit keeps on the machine what `rt ci` passed, so that the gate need not prove it again.
That runs in a temporary folder with the crates that the program stands on, without the edits that must fail.

A library, and with another kit a program, too, is proved here, as many crates side by side as there are processors, with 4 GiB
of free memory for each; WORKERS is another number. `rt` locks the folders of the crate that it proves and of all crates below,
so that in one folder most runs would wait for each other. Each worker therefore has a copy of the repository in a temporary
folder, with links to the libraries that are built.
"""
import contextlib
import fcntl
import hashlib
import os
import pathlib
import re
import shutil
import signal
import subprocess
import sys
import tempfile
import time

ROOT = pathlib.Path(__file__).resolve().parent.parent
CRATES = ROOT / "crates"
MARKS = ROOT / "out" / "proved"
MEMORY_EACH = 4 << 30
# A crate that is proved longer than this has a line of its own as it goes on.
QUIET_SECONDS = 8
# What no proof reads.
NO_TEXT = ("out", "must-fail", "edits")


def read_list():
    """Returns the libraries that each crate of the repository names in crates.txt."""
    crates = {}
    for line in (ROOT / "crates.txt").read_text(encoding="utf-8").split("\n"):
        name, colon, below = line.partition("#")[0].partition(":")
        if colon:
            crates[name.split()[0]] = below.split()
    return crates


def read_crates():
    """Returns the crates of the repository that each crate stands on."""
    crates = read_list()
    return {name: [it for it in below if it in crates] for name, below in crates.items()}


def closure(crates, names):
    """Returns the crates and all that they stand on, each behind those below it."""
    order = []

    def add(name):
        if name not in order:
            for it in crates[name]:
                add(it)
            order.append(name)

    for name in names:
        add(name)
    return order


def free_memory():
    try:
        for line in pathlib.Path("/proc/meminfo").read_text(encoding="utf-8").split("\n"):
            if line.startswith("MemAvailable:"):
                return int(line.split()[1]) << 10
    except OSError:
        pass
    return MEMORY_EACH


def size(folder):
    return sum(file.stat().st_size for file in folder.rglob("*") if file.is_file())


def guess(name):
    """Returns about how many seconds a crate's proof takes where nothing is kept, by the size of its text."""
    crate = CRATES / name
    seconds = 10 + size(crate / "src") / 333 + (size(crate / "specs") + size(crate / "proofs")) / 5000
    return seconds + (80 if is_program(name) else 0)


def is_program(name):
    return (CRATES / name / "src" / "main.rt").exists()


def span(seconds):
    if seconds < 90:
        return f"{max(1, round(seconds))} s"
    return f"{round(seconds / 60)} minutes"


def read(file):
    return file.read_bytes() if file.exists() else b""


def link(source, target):
    """Makes the target another name of the file, or a copy where the file system has no such names."""
    try:
        os.link(source, target)
    except OSError:
        shutil.copy2(source, target)


def remove(folder):
    """Removes a folder in which a process that was stopped may still write for a moment."""
    for _ in range(100):
        shutil.rmtree(folder, ignore_errors=True)
        if not folder.exists():
            return
        time.sleep(0.05)


@contextlib.contextmanager
def room():
    """Gives a temporary folder in which files of the repository can have second names, if there is a place for one."""
    places = [pathlib.Path(tempfile.gettempdir()), ROOT.parent, ROOT / "out"]
    for place in places:
        try:
            place.mkdir(exist_ok=True)
            folder = pathlib.Path(tempfile.mkdtemp(prefix="prove-", dir=place))
        except OSError:
            continue
        try:
            with contextlib.suppress(OSError):
                os.link(ROOT / "crates.txt", folder / "link")
            if (folder / "link").exists() or place == places[-1]:
                yield folder
                return
        finally:
            remove(folder)
    sys.exit(f"no temporary folder can be made in {' or '.join(map(str, places))}")


def copy_texts(root, folder, names):
    """Copies what a proof reads of the crates into another folder."""
    for name in names:
        to = folder / "crates" / name
        to.mkdir(parents=True)
        for part in (root / "crates" / name).iterdir():
            if part.is_dir() and part.name not in NO_TEXT:
                shutil.copytree(part, to / part.name)
            elif part.is_file():
                shutil.copy2(part, to / part.name)
    for name in ("crates.txt", "HANDLES"):
        if (root / name).exists():
            shutil.copy2(root / name, folder / name)


class Place:
    """A copy of the repository, in which one worker proves one crate at a time."""

    def __init__(self, folder, root):
        self.folder, self.linked = folder, set()
        copy_texts(root, folder, [it.name for it in (root / "crates").iterdir() if it.is_dir()])

    def crate(self, name):
        return self.folder / "crates" / name

    def begin(self, name, below):
        """Links the libraries below the crate, which are built, and takes over what was made of the crate before."""
        for it in below:
            if it not in self.linked:
                self.linked.add(it)
                shutil.copytree(CRATES / it / "out" / "rlib", self.crate(it) / "out" / "rlib", copy_function=link)
        # No link: rt may write these files in place.
        if (CRATES / name / "out").exists():
            shutil.copytree(CRATES / name / "out", self.crate(name) / "out")

    def hand_over(self, name, is_whole):
        """Puts what the worker made of a crate into the repository, each part in one step: what the check kept, and, if the
        crate is proved, what was built."""
        made, out = self.crate(name) / "out", CRATES / name / "out"
        is_new = not is_whole or stamp(made, name) == b"" or stamp(made, name) != stamp(out, name)
        with locked(CRATES / name):
            out.mkdir(exist_ok=True)
            for it in sorted(made.iterdir()) if is_new and made.exists() else []:
                if is_whole or it.name == "incremental":
                    if (out / it.name).exists():
                        (out / it.name).rename(self.folder / it.name)
                    it.rename(out / it.name)
                    remove(self.folder / it.name)
        remove(made)


@contextlib.contextmanager
def locked(path):
    """Holds the lock of a file or folder, as `rt` holds those of the crates that it works on."""
    held = os.open(path, os.O_RDONLY)
    try:
        # Some file systems have no locks.
        with contextlib.suppress(OSError):
            fcntl.flock(held, fcntl.LOCK_EX)
        yield
    finally:
        os.close(held)


def stamp(out, name):
    """Returns what `rt` notes of the text that a library or a program was built from."""
    return read(out / (f"{name}.stamp" if is_program(name) else "rlib/stamp"))


class Marks:
    """Knows which crates were proved before, by marks in the repository's out/proved. Where a crate has no mark, `rt` is
    asked, which takes longer."""

    def __init__(self, crates, order, root):
        self.sums, listed = {}, read_list()
        version = subprocess.run(["rt", "version"], stdin=subprocess.DEVNULL, stdout=subprocess.PIPE, check=False).stdout
        for name in order:
            whole = hashlib.sha256(version + " ".join(listed[name]).encode())
            for it in crates[name]:
                whole.update(self.sums[it].encode())
            for file in sorted((root / "crates" / name).rglob("*")):
                if file.is_file():
                    whole.update(f"\n{file.relative_to(root)} {file.stat().st_size}\n".encode() + file.read_bytes())
            self.sums[name] = whole.hexdigest()

    def mark(self, name):
        """Returns the mark of the crate's text and of what is built of it."""
        out = CRATES / name / "out"
        built = stamp(out, name) + (read(out / name) if is_program(name) else b"")
        return f"{self.sums[name]} {hashlib.sha256(built).hexdigest()}\n".encode() if built else None

    def holds(self, name):
        return self.mark(name) is not None and self.mark(name) == read(MARKS / name)

    def leave(self, name):
        if self.mark(name):
            MARKS.mkdir(parents=True, exist_ok=True)
            (MARKS / f"{name}.new").write_bytes(self.mark(name))
            (MARKS / f"{name}.new").replace(MARKS / name)


class Proof:
    """One crate that is being proved."""

    def __init__(self, name, place, jobs):
        self.name, self.place = name, place
        self.began = time.monotonic()
        self.announced = False
        self.output, self.log = tempfile.TemporaryFile(), tempfile.TemporaryFile()
        words = ["lib", "--jobs", str(jobs)]
        if is_program(name):
            words = ["run", "--jobs", str(jobs), "--", *read(CRATES / name / "args").decode().split()]
        words = [sys.executable, ROOT / "tools" / "quick_rt.py", *words]
        how = {"cwd": place.crate(name), "stdin": subprocess.DEVNULL, "stdout": self.output, "stderr": self.log}
        self.process = subprocess.Popen(words, **how)

    def seconds(self):
        return time.monotonic() - self.began

    def is_good(self):
        if not is_program(self.name):
            return self.process.returncode == 0
        self.output.seek(0)
        wanted = int(read(CRATES / self.name / "status") or 0)
        return self.process.returncode == wanted and self.output.read() == read(CRATES / self.name / "stdout")

    def print_log(self):
        for file in (self.output, self.log):
            file.seek(0)
            sys.stdout.write(file.read().decode(errors="replace"))


class Run:
    """Proves crates with all that they stand on, in copies of the repository below the folder."""

    def __init__(self, names, workers, folder):
        self.crates = read_crates()
        self.order = closure(self.crates, names)
        self.workers, self.folder = workers, folder
        self.guesses = {it: guess(it) for it in self.order}
        self.chains = self.longest_chains(self.guesses)
        self.done, self.running, self.idle = {}, [], []
        self.text = Place(folder / "text", ROOT).folder
        self.marks = Marks(self.crates, self.order, self.text)

    def ready(self):
        begun = {*self.done, *(it.name for it in self.running)}
        free = [it for it in self.order if it not in begun and all(below in self.done for below in self.crates[it])]
        return sorted(free, key=self.chains.get, reverse=True)

    def longest_chains(self, work):
        """Returns for each crate of the work the seconds of the longest chain of crates from it up."""
        chains = {}
        for name in reversed(self.order):
            if name in work:
                above = [seconds for it, seconds in chains.items() if name in self.crates[it]]
                chains[name] = work[name] + max(above, default=0)
        return chains

    def proved_now(self):
        """Returns the seconds of the crates that were not proved before."""
        return {name: took for name, took in self.done.items() if took > QUIET_SECONDS}

    def left(self):
        """Returns about how many seconds are left, by those that the crates took until now."""
        slow = self.proved_now()
        pace = sum(slow.values()) / sum(self.guesses[it] for it in slow) if slow else 1
        work = {it: self.guesses[it] for it in self.order if it not in self.done}
        for it in self.running:
            work[it.name] = max(0, work[it.name] - it.seconds() / pace)
        longest = max(self.longest_chains(work).values(), default=0)
        return pace * max(sum(work.values()) / self.workers, longest)

    def start(self):
        ready = self.ready()
        while ready and len(self.running) < self.workers:
            jobs = max(1, self.workers // (len(ready) + len(self.running)))
            name = ready.pop(0)
            place = self.idle.pop() if self.idle else Place(self.folder / str(len(self.running)), self.text)
            place.begin(name, closure(self.crates, [name])[:-1])
            self.running.append(Proof(name, place, jobs))

    def step(self):
        """Looks at each crate that is being proved. Returns one whose proof failed, if there is any."""
        for it in list(self.running):
            if it.process.poll() is None:
                if not it.announced and it.seconds() > QUIET_SECONDS:
                    it.announced = True
                    say(f"proving {it.name}, for some {span(self.guesses[it.name])}")
                continue
            self.running.remove(it)
            self.idle.append(it.place)
            # What a check kept that rt ended by itself is whole, also of a crate that is not proved.
            if it.is_good() or it.process.returncode in (1, 2, 3):
                it.place.hand_over(it.name, it.is_good())
            if not it.is_good():
                return it
            self.marks.leave(it.name)
            self.done[it.name] = it.seconds()
            self.tell(it)
        return None

    def tell(self, it):
        done, all_of = len(self.done), len(self.order)
        how = f"proved in {span(self.done[it.name])}" if it.name in self.proved_now() else "proved before"
        about = "about" if self.proved_now() else "at most"
        left = f"; {about} {span(self.left())} left" if done < all_of else ""
        say(f"[{done:{len(str(all_of))}}/{all_of}] {it.name} ({how}{left})")

    def stop(self):
        for it in self.running:
            it.process.terminate()
        for it in self.running:
            it.process.wait()

    def prove(self):
        self.done = {it: 0 for it in self.order if self.marks.holds(it)}
        before = f", of which {len(self.done)} were proved before" if self.done else ""
        say(f"{len(self.order)} crates{before}")
        if len(self.done) < len(self.order):
            say(f"up to {self.workers} are proved side by side: about {span(self.left())} where none is proved yet")
        while len(self.done) < len(self.order):
            self.start()
            failed = self.step()
            if failed:
                failed.print_log()
                say(f"{failed.name} is not proved or not built: above is what rt said of it")
                return 1
            time.sleep(0.1)
        return 0


def say(line):
    print(line, flush=True)


def keeps_proofs():
    """Tells whether the kit keeps on this machine what `rt ci` passed."""
    said = subprocess.run(["rt", "help"], stdin=subprocess.DEVNULL, stdout=subprocess.PIPE, stderr=subprocess.STDOUT, check=False)
    return b"is kept beside the kit" in said.stdout


class Gate:
    """One run of `rt ci` over a program and all crates that it stands on, in a folder of its own."""

    def __init__(self, program, folder):
        crates = read_crates()
        self.program, self.folder = program, folder
        self.order = closure(crates, [program])
        copy_texts(ROOT, folder, self.order)
        lines = (folder / "crates.txt").read_text(encoding="utf-8").splitlines(keepends=True)
        (folder / "crates.txt").write_text("".join(it for it in lines if re.split(r"\W", it)[0] in self.order), encoding="utf-8")
        self.marks = Marks(crates, self.order, folder)
        self.guesses = {it: guess(it) for it in self.order}
        self.began, self.done, self.proved = time.monotonic(), set(), set()

    def left(self):
        """Returns about how many seconds are left, by the pace of the crates that were proved until now."""
        pace = (time.monotonic() - self.began) / max(1, sum(self.guesses[it] for it in self.proved))
        return pace * sum(self.guesses[it] for it in self.order if it not in self.done)

    def tell(self, name, is_kept):
        self.done.add(name)
        if not is_kept:
            self.proved.add(name)
        done, all_of = len(self.done), len(self.order)
        left = f"; about {span(self.left())} left" if self.proved and done < all_of else ""
        say(f"[{done:{len(str(all_of))}}/{all_of}] {name} ({'proved before' if is_kept else 'proved'}{left})")

    def read(self, lines):
        """Says what `rt` says of each crate, and of one that it refuses all. What follows the last crate is of the runs."""
        block = []
        for line in lines:
            block = [line] if line.startswith("== ") else [*block, line]
            told = re.match(r"rt: (\w+) (proved$|is kept: |NOT PROVED)", line)
            if told and told[2] == "NOT PROVED":
                print("".join(block), end="", flush=True)
                block = []
            elif told and told[1] in self.guesses:
                self.tell(told[1], told[2] != "proved")
                block = []
        return block

    def prove(self):
        if self.marks.holds(self.program):
            say(f"{self.program} and what it stands on were proved before")
            return 0
        say(f"{len(self.order)} crates, by rt ci: about {span(sum(self.guesses.values()) / (os.cpu_count() or 1))} where none is proved yet")
        # `rt` is a Python program, which else keeps its lines back.
        how = {"cwd": self.folder, "env": {**os.environ, "PYTHONUNBUFFERED": "1"}, "stdin": subprocess.DEVNULL}
        words = [sys.executable, ROOT / "tools" / "quick_rt.py", "ci"]
        with subprocess.Popen(words, stdout=subprocess.PIPE, stderr=subprocess.STDOUT, text=True, errors="replace", **how) as process:
            try:
                last = self.read(process.stdout)
            except BaseException:
                process.terminate()
                raise
        if process.returncode:
            print("".join(last), end="")
            say(f"{self.program} is not proved or not built: above is what rt said of it")
            return 1
        self.hand_over()
        return 0

    def hand_over(self):
        """Puts the program into the repository, in one step."""
        out = CRATES / self.program / "out"
        out.mkdir(exist_ok=True)
        shutil.copy2(self.folder / "crates" / self.program / "out" / self.program, out / f"{self.program}.new")
        (out / f"{self.program}.new").replace(out / self.program)
        self.marks.leave(self.program)


def prove_by_gate(program):
    """Proves a program by `rt ci`, and returns the status."""
    with locked(ROOT / "crates.txt"), room() as folder:
        return Gate(program, folder / "text").prove()


def prove(names, workers):
    """Proves the crates with all that they stand on, and returns the status."""
    # A second call waits, and then finds what the first proved.
    with locked(ROOT / "crates.txt"), room() as folder:
        run = Run(names, workers, folder)
        try:
            return run.prove()
        finally:
            run.stop()


def main():
    workers = int(sys.argv[2]) if len(sys.argv) > 2 else min(os.cpu_count() or 1, free_memory() // MEMORY_EACH)
    for it in (signal.SIGTERM, signal.SIGHUP, signal.SIGINT):
        signal.signal(it, lambda number, _: sys.exit(128 + number))
    name = sys.argv[1]
    return prove_by_gate(name) if is_program(name) and keeps_proofs() else prove([name], max(1, workers))


if __name__ == "__main__":
    sys.exit(main())
