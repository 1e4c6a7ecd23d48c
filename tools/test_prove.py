#!/usr/bin/env python3
"""Tests tools/prove.py over a small repository: python3 tools/test_prove.py

A stub stands for `rt`. It locks folders as rattle-kit-13b does. It proves a text that says "meets" only while three others
are proved, and never ends with one that says "slow". With the variable STUB_KEEPS it is a kit that keeps what `rt ci` passed.
"""
import json
import os
import pathlib
import shutil
import signal
import subprocess
import sys
import tempfile
import time
import unittest

TOOLS = pathlib.Path(__file__).resolve().parent
# Four crates stand on one, and one crate and a program stand on all.
CRATES = {"low": [], "a": ["low"], "b": ["low"], "c": ["low"], "d": ["low"], "top": ["low", "a", "b", "c", "d"], "app": ["top"]}

STUB = '''#!/usr/bin/env python3
"""Locks the crate and all crates below it, builds those that are not built, and notes each proof."""
import fcntl, hashlib, json, os, pathlib, sys, time

def below(root, name):
    listed = dict(line.split(":") for line in (root / "crates.txt").read_text().splitlines())
    found = []
    for it in listed[name].split():
        found += [each for each in [*below(root, it), it] if each not in found]
    return found

def stamp(root, name):
    texts = [file.read_text() for file in sorted((root / "crates" / name / "src").iterdir())]
    return hashlib.sha256(repr([texts, [stamp(root, it) for it in below(root, name)]]).encode()).hexdigest()

def build(root, name, program):
    out, was = root / "crates" / name / "out", stamp(root, name)
    kept = out / ("app.stamp" if program else "rlib/stamp")
    if kept.exists() and kept.read_text() == was:
        return
    room = pathlib.Path(os.environ["STUB_ROOM"])
    (room / "begun" / name).touch()
    (out / "incremental").mkdir(parents=True, exist_ok=True)
    text = "".join(file.read_text() for file in sorted((root / "crates" / name / "src").iterdir()))
    with open(out / "incremental" / "kept", "a") as file:
        file.write("half")
        file.flush()
        until = time.time() + 60
        while time.time() < until and ("slow" in text or "meets" in text and len([*(room / "begun").iterdir()]) < 5):
            time.sleep(0.05)
        file.write(" whole\\n")
    is_proved = "wrong" not in text and time.time() < until
    with open(room / "proofs", "a") as log:
        log.write(json.dumps([name, is_proved]) + "\\n")
    if not is_proved:
        sys.exit(1)
    if not program:
        (out / "rlib" / f"{name}.rlib").mkdir(parents=True, exist_ok=True)
        (out / "rlib" / f"{name}.rlib" / "format").write_text(text)
    kept.write_text(was)

def gate(root):
    """Proves all crates that stand there but those that it proved before, and builds the program."""
    room = pathlib.Path(os.environ["STUB_ROOM"])
    for name in (line.split(":")[0] for line in (root / "crates.txt").read_text().splitlines()):
        assert not (root / "crates" / name / "must-fail").exists()
        if (room / f"kept-{stamp(root, name)}").exists():
            print(f"rt: {name} is kept: it was proved before")
            continue
        text = "".join(file.read_text() for file in sorted((root / "crates" / name / "src").iterdir()))
        with open(room / "proofs", "a") as log:
            log.write(json.dumps([name, "wrong" not in text]) + "\\n")
        (room / "begun" / name).touch()
        while "slow" in text:
            time.sleep(0.05)
        print(f"== {name}\\nof {name}\\nrt: {name} {'NOT PROVED' if 'wrong' in text else 'proved'}", flush=True)
        if "wrong" in text:
            sys.exit(1)
        (room / f"kept-{stamp(root, name)}").touch()
    (root / "crates" / "app" / "out").mkdir()
    (root / "crates" / "app" / "out" / "app").write_text(stamp(root, "app"))

def main():
    if sys.argv[1] == "version":
        return print("stub")
    if sys.argv[1] == "help":
        return print("what passed is kept beside the kit" * ("STUB_KEEPS" in os.environ))
    if sys.argv[1] == "ci":
        return gate(pathlib.Path.cwd())
    name, root = pathlib.Path.cwd().name, pathlib.Path.cwd().parent.parent
    held = [os.open(root / "crates" / it, os.O_RDONLY) for it in sorted([*below(root, name), name])]
    for it in held:
        fcntl.flock(it, fcntl.LOCK_EX)
    for it in below(root, name):
        build(root, it, False)
    build(root, name, sys.argv[1] == "run")
    if sys.argv[1] == "run":
        print("ran")


if __name__ == "__main__":
    main()
'''


class Prove(unittest.TestCase):
    def setUp(self):
        self.room = pathlib.Path(tempfile.mkdtemp(prefix="test-prove-"))
        self.addCleanup(shutil.rmtree, self.room)
        self.variables = {"STUB_ROOM": str(self.room), "TMPDIR": str(self.room / "temp")}
        for name in ("begun", "bin", "temp", "repository/tools"):
            (self.room / name).mkdir(parents=True)
        self.root = self.room / "repository"
        (self.room / "bin" / "rt").write_text(STUB)
        (self.room / "bin" / "rt").chmod(0o755)
        for name in ("prove.py", "quick_rt.py"):
            shutil.copy2(TOOLS / name, self.root / "tools" / name)
        for name, below in CRATES.items():
            self.write(name, f"text of {name}")
        (self.root / "crates" / "app" / "stdout").write_text("ran\n")
        (self.root / "crates.txt").write_text("".join(f"{name}: {' '.join(below)}\n" for name, below in CRATES.items()))

    def write(self, name, text):
        folder = self.root / "crates" / name / "src"
        folder.mkdir(parents=True, exist_ok=True)
        (folder / ("main.rt" if name == "app" else "lib.rt")).write_text(text)

    def begin(self, name, workers=4):
        (self.room / "proofs").write_text("")
        for it in (self.room / "begun").iterdir():
            it.unlink()
        words = [sys.executable, self.root / "tools" / "prove.py", name, str(workers)]
        variables = {**os.environ, "PATH": f"{self.room / 'bin'}:{os.environ['PATH']}", **self.variables}
        return subprocess.Popen(words, env=variables, stdout=subprocess.PIPE, stderr=subprocess.STDOUT, text=True)

    def prove(self, name, status=0):
        """Runs the tool to its end, and returns the proofs that this call made and its last line."""
        ran = self.begin(name)
        said, _ = ran.communicate(timeout=300)
        self.assertEqual(ran.returncode, status, said)
        self.assertEqual(list((self.room / "temp").iterdir()), [])
        proofs = [json.loads(line) for line in (self.room / "proofs").read_text().splitlines()]
        return proofs, said.strip().split("\n")[-1]

    def built(self):
        """Returns the crates that have something built in the repository. Each has to be whole."""
        found = set()
        for crate in (self.root / "crates").iterdir():
            out = crate / "out"
            if (out / "rlib").exists() or (out / "app.stamp").exists():
                found.add(crate.name)
                self.assertTrue((out / "app.stamp").exists() or (out / "rlib" / "stamp").exists())
            for file in [*out.rglob("kept")] if out.exists() else []:
                self.assertTrue(file.read_text().endswith("whole\n"), f"half of a check's work stays in {out}")
        return found

    def test_four_at_a_time_and_each_once(self):
        for name in "abcd":
            self.write(name, "meets")
        proofs, last = self.prove("app")
        self.assertEqual(sorted(it[0] for it in proofs), sorted(CRATES))
        self.assertEqual(self.built(), set(CRATES))
        self.assertIn("[7/7] app", last)

    def test_a_second_call_proves_nothing(self):
        self.prove("app")
        self.assertEqual(self.prove("app")[0], [])
        # Without marks rt is asked, and takes what is built.
        shutil.rmtree(self.root / "out")
        self.assertEqual(self.prove("app")[0], [])
        self.assertEqual(self.prove("app")[0], [])

    def test_a_changed_text_is_proved_with_what_stands_on_it(self):
        self.prove("app")
        self.write("c", "another text")
        self.assertEqual([it[0] for it in self.prove("app")[0]], ["c", "top", "app"])
        kept = (self.root / "crates" / "c" / "out" / "incremental" / "kept").read_text()
        self.assertEqual(kept, "half whole\n" * 2, "the second proof begins with what the first kept")

    def test_a_library_of_another_text_is_not_taken(self):
        self.prove("top")
        shutil.copytree(self.root / "crates" / "b" / "out", self.room / "old")
        self.write("b", "another text")
        self.prove("top")
        shutil.rmtree(self.root / "crates" / "b" / "out")
        shutil.copytree(self.room / "old", self.root / "crates" / "b" / "out")
        self.assertEqual([it[0] for it in self.prove("top")[0]], ["b"])

    def test_a_failure_stops_what_stands_on_it(self):
        self.write("b", "wrong")
        proofs, last = self.prove("app", status=1)
        self.assertIn(["b", False], proofs)
        self.assertFalse({"top", "app"} & {it[0] for it in proofs})
        self.assertIn("b is not proved", last)
        self.assertFalse({"b", "top", "app"} & self.built())
        self.write("b", "right")
        self.assertEqual(self.prove("app")[0][-1][0], "app")

    def test_an_interrupt_leaves_nothing_half_made(self):
        self.prove("a")
        self.write("a", "slow")
        self.write("c", "slow")
        for number in (signal.SIGINT, signal.SIGTERM):
            ran, until = self.begin("app"), time.time() + 60
            while time.time() < until and not all((self.room / "begun" / it).exists() for it in "ac"):
                time.sleep(0.05)
            ran.send_signal(number)
            said, _ = ran.communicate(timeout=60)
            self.assertEqual(ran.returncode, 128 + number, said)
            self.assertEqual(list((self.room / "temp").iterdir()), [], said)
            self.assertLessEqual({"low", "a"}, self.built())
            self.assertFalse((self.root / "crates" / "c" / "out").exists())
            self.assertEqual((self.root / "crates" / "a" / "out" / "incremental" / "kept").read_text(), "half whole\n")

    def test_a_kit_that_keeps_proofs_proves_a_program_by_the_gate(self):
        self.variables["STUB_KEEPS"] = "1"
        self.write("alone", "wrong, and no part of the program")
        (self.root / "crates.txt").write_text("alone:\n# low: d\n" + (self.root / "crates.txt").read_text())
        (self.root / "crates" / "a" / "must-fail").mkdir()
        proofs, last = self.prove("app")
        self.assertEqual([it[0] for it in proofs], [*CRATES])
        self.assertIn("[7/7] app", last)
        self.assertTrue((self.root / "crates" / "app" / "out" / "app").exists())
        proofs, last = self.prove("app")
        self.assertEqual(proofs, [])
        self.assertIn("proved before", last)
        # What is proved there counts, also where the repository does not know it.
        shutil.rmtree(self.root / "crates" / "app" / "out")
        self.assertEqual(self.prove("app")[0], [])
        self.write("c", "another text")
        self.assertEqual([it[0] for it in self.prove("app")[0]], ["c", "top", "app"])
        self.assertEqual([it[0] for it in self.prove("a")[0]], ["low", "a"], "a library is built in the repository")

    def test_what_the_gate_refuses_is_told(self):
        self.variables["STUB_KEEPS"] = "1"
        self.write("b", "wrong")
        self.prove("app", status=1)
        ran = self.begin("app")
        said = ran.communicate(timeout=60)[0]
        self.assertIn("of b\nrt: b NOT PROVED", said)
        self.assertEqual(said.count("NOT PROVED"), 1)
        self.assertFalse((self.root / "crates" / "app" / "out").exists())
        self.write("b", "slow")
        for number in (signal.SIGINT, signal.SIGTERM):
            ran, until = self.begin("app"), time.time() + 60
            while time.time() < until and not (self.room / "begun" / "b").exists():
                time.sleep(0.05)
            ran.send_signal(number)
            ran.communicate(timeout=60)
            self.assertEqual(ran.returncode, 128 + number)
            self.assertEqual(list((self.room / "temp").iterdir()), [])


if __name__ == "__main__":
    unittest.main()
