"""The table of the command line, what is made of it, `soroban`, and the installation."""
from __future__ import annotations

import importlib.util
import os
import shutil
import subprocess
import sys
import tempfile
import unittest
from types import ModuleType
from typing import Dict, List, Tuple

from soroban_files import schema
from soroban_files.program import can_tell_why, is_there, path_of, why_path
from soroban_files.world import NETWORK, new_ledger
from soroban_files.hashes import network_id
from tests.tables import REPOSITORY

TOOLS = os.path.join(REPOSITORY, "tools")
REJECTED = 9


def load_table() -> ModuleType:
    spec = importlib.util.spec_from_file_location("command_table", os.path.join(TOOLS, "command_table.py"))
    assert spec and spec.loader
    module = importlib.util.module_from_spec(spec)
    spec.loader.exec_module(module)
    return module


def run(words: List[str], **variables: str) -> Tuple[int, str, str]:
    """Returns the status of a command and what it prints."""
    environment: Dict[str, str] = {**os.environ, "PYTHONDONTWRITEBYTECODE": "1", **variables}
    ran = subprocess.run(
        words, env=environment, stdin=subprocess.DEVNULL, stdout=subprocess.PIPE, stderr=subprocess.PIPE, check=False
    )
    return ran.returncode, ran.stdout.decode(), ran.stderr.decode()


class TableTest(unittest.TestCase):
    def setUp(self) -> None:
        self.pages = load_table()
        self.table = self.pages.load()

    def test_readme(self) -> None:
        self.assertEqual(self.pages.check_readme(self.table), [])

    def test_program(self) -> None:
        if not is_there():
            self.skipTest(f"there is no program at {path_of()}")
        self.assertEqual(self.pages.check_program(self.table, path_of()), [])

    def test_other_program(self) -> None:
        if not can_tell_why():
            self.skipTest(f"there is no program at {why_path()}")
        self.assertEqual(self.pages.check_other(self.pages.find(self.table, "why"), why_path()), [])

    def test_man_page(self) -> None:
        if not shutil.which("man"):
            self.skipTest("the command man is missing")
        with tempfile.TemporaryDirectory() as folder:
            page = os.path.join(folder, "soroban.1")
            with open(page, "w", encoding="utf-8") as file:
                file.write(self.pages.man_page(self.table))
            status, said, faults = run(["man", "--warnings", "-l", page], MANPAGER="cat", MANROFFSEQ="")
        self.assertEqual((status, faults), (0, ""))
        for command in self.pages.all_commands(self.table):
            self.assertIn(command["about"].split()[0], said)

    def complete(self, *words: str) -> List[str]:
        """Returns what bash offers for the last word."""
        script = self.pages.bash_completions(self.table) + 'COMP_WORDS=("$@"); COMP_CWORD=$(($# - 1)); _soroban "$1"\n'
        script += 'printf "%s\\n" "${COMPREPLY[@]}"'
        status, said, faults = run(["bash", "-c", script, "bash", *words])
        self.assertEqual((status, faults), (0, ""))
        return said.split()

    def test_bash(self) -> None:
        if not shutil.which("bash"):
            self.skipTest("the command bash is missing")
        names = [command["name"] for command in self.table["commands"]]
        self.assertEqual(self.complete("soroban", ""), [*names, "why", "help", "version"])
        self.assertEqual(self.complete("soroban_cmd", ""), names)
        self.assertEqual(self.complete("soroban_cmd", "s"), ["simulate", "show"])
        self.assertEqual(self.complete("soroban", "vet", "--"), ["--module"])
        self.assertEqual(self.complete("soroban", "show", "--kind", "e"), ["envelope"])
        self.assertEqual(self.complete("soroban", "show", "--kind", "set", "--"), ["--file", "--base64"])
        self.assertEqual(self.complete("soroban", "help", "m"), ["migrate"])
        options = ["--tx", "--ledger", "--verdicts", "--close-time", "--record", "--lines", "--json", "--base64"]
        options += ["--set", "--stage", "--cluster", "--place"]
        self.assertEqual(self.complete("soroban", "why", "--"), options)
        self.assertEqual(self.complete("soroban_why", "--"), options)
        self.assertEqual(self.complete("soroban_why", "--record", "--"), [it for it in options if it != "--record"])

    def test_zsh(self) -> None:
        if not shutil.which("zsh"):
            self.skipTest("the command zsh is missing")
        self.assertEqual(run(["zsh", "-n", "-c", self.pages.zsh_completions(self.table)]), (0, "", ""))


class WrapperTest(unittest.TestCase):
    """`soroban` in the repository. The program is `echo`, which prints the words that reach it."""

    def setUp(self) -> None:
        folder = tempfile.TemporaryDirectory()
        self.addCleanup(folder.cleanup)
        self.folder = folder.name
        self.write("ledger", schema.write(schema.LEDGER, new_ledger(network_id(NETWORK), 100, 1000)))
        for name in ("set", "verdicts"):
            self.write(name, b"")

    def write(self, name: str, content: bytes) -> None:
        with open(os.path.join(self.folder, name), "wb") as file:
            file.write(content)

    def soroban(self, *words: str) -> Tuple[int, str, str]:
        script = f'cd "{self.folder}" && exec "{sys.executable}" "{TOOLS}/soroban.py" "$@"'
        echo = shutil.which("echo") or "/bin/echo"
        return run(["sh", "-c", script, "sh", *words], SOROBAN_CMD=echo, SOROBAN_WHY=echo)

    def apply(self, **options: str) -> List[str]:
        right = {
            "set": "set",
            "ledger": "ledger",
            "verdicts": "verdicts",
            "close_time": "1000",
            "workers": "1",
            "report": "r",
        }
        right = {**right, "ledger_out": "n", **options}
        return ["apply", *[f"--{name.replace('_', '-')}={value}" for name, value in right.items()]]

    def assert_rejected(self, words: List[str], why: str) -> None:
        status, said, faults = self.soroban(*words)
        self.assertEqual((status, said), (REJECTED, ""))
        self.assertIn(why, faults)

    def test_right_words(self) -> None:
        self.write("order", bytes(4))
        for words in (self.apply(), self.apply(schedule="order"), self.apply(schedule="order", steps="0")):
            self.assertEqual(self.soroban(*words), (0, " ".join(words) + "\n", ""))
        self.assertEqual(self.soroban("show", "--kind", "set", "--file", "set", "--base64")[0], 0)

    def test_why(self) -> None:
        words = ["--tx", "set", "--ledger", "ledger", "--verdicts", "verdicts", "--close-time", "1000", "--json"]
        self.assertEqual(self.soroban("why", *words), (0, " ".join(words) + "\n", ""))
        self.assert_rejected(["why", *words[2:]], "why needs --tx FILE")
        self.assert_rejected(["why", *words, "--out", "o"], "why has no option --out")

    def test_why_of_a_set(self) -> None:
        files = ["--set", "set", "--ledger", "ledger", "--verdicts", "verdicts", "--close-time", "1000"]
        words = [*files, "--stage", "1", "--cluster", "0", "--place=2"]
        self.assertEqual(self.soroban("why", *words), (0, " ".join(words) + "\n", ""))
        self.assert_rejected(["why", *words[:-1]], "why needs --place N")
        self.assert_rejected(["why", *words, "--record"], "--record does not go with the other options")
        self.assert_rejected(["why", *words, "--tx", "set"], "--tx does not go with the other options")
        self.assertIn("--set FILE --stage N", self.soroban("help", "why")[1])

    def test_help(self) -> None:
        self.assertIn("--close-time SECONDS", self.soroban("help", "apply")[1])
        self.assertIn("soroban version", self.soroban("help")[1])
        self.assertIn("sha256", self.soroban("version")[1])

    def test_wrong_words(self) -> None:
        self.assert_rejected(["shwo"], "is show meant?")
        self.assert_rejected(["vet", "--modul", "set"], "is module meant?")
        self.assert_rejected(["vet"], "vet needs --module FILE")
        self.assert_rejected(["vet", "--module"], "lacks its value")
        self.assert_rejected(["vet", "--module", "set", "--module", "set"], "twice")
        self.assert_rejected(self.apply(workers="65"), "a number from 1 to 64")
        self.assert_rejected(self.apply(steps="2"), "--steps needs --schedule FILE")
        self.assert_rejected(self.apply(schedule="set", steps="x"), "a number from 0 to")
        self.assert_rejected(["show", "--kind", "sets", "--file", "set"], "one of set, envelope, ledger, value")

    def test_files(self) -> None:
        self.assert_rejected(self.apply(set="none"), "none cannot be read")
        self.assert_rejected(self.apply(set="."), "no regular file")
        self.assert_rejected(self.apply(report="none/r"), "no folder")
        self.assert_rejected(self.apply(ledger_out="./ledger"), "the same file")
        self.assert_rejected(self.apply(ledger_out="./r"), "the same file")
        self.assert_rejected(self.apply(schedule="./set"), "the same file")
        os.symlink("ledger", os.path.join(self.folder, "link"))
        self.assert_rejected(self.apply(report="link"), "the same file")
        os.link(os.path.join(self.folder, "set"), os.path.join(self.folder, "hard"))
        self.assert_rejected(self.apply(report="hard"), "the same file")

    def test_time(self) -> None:
        self.assert_rejected(self.apply(close_time="999"), "before the ledger's close time 1000")
        self.write("ledger", b"\0\0\0\1" + bytes(36) + (2000).to_bytes(8, "big") + bytes(8))  # the head of a version 1
        self.assert_rejected(self.apply(close_time="1999"), "before the ledger's close time 2000")
        self.write("ledger", b"no ledger")
        self.assertEqual(self.soroban(*self.apply(close_time="0"))[0], 0)  # the program says what is wrong


class InstallTest(unittest.TestCase):
    def test_install(self) -> None:
        if not is_there():
            self.skipTest(f"there is no program at {path_of()}")
        with tempfile.TemporaryDirectory() as folder:
            words = ["sh", f"{TOOLS}/install.sh", "--prefix", folder, "--program", path_of()]
            status, said, faults = run(words + ["--why", why_path()] * can_tell_why())
            self.assertEqual((status, faults), (0, ""))
            self.assertIn("soroban_cmd, not proved by this installation", said)
            installed = [f"bin/{name}" for name in ("soroban", "soroban_cmd", "soroban-files")]
            installed += ["bin/soroban_why"] * can_tell_why()
            installed += [f"share/man/man1/{name}.1" for name in ("soroban", "soroban_cmd", "soroban_why")]
            installed += ["share/bash-completion/completions/soroban", "share/zsh/site-functions/_soroban"]
            for name in installed:
                self.assertTrue(os.path.exists(os.path.join(folder, name)), name)
            soroban = os.path.join(folder, "bin", "soroban")
            module = os.path.join(folder, "module")
            with open(module, "wb") as file:
                file.write(b"\0asm\1\0\0\0")
            clean = {name: value for name, value in os.environ.items() if name != "SOROBAN_CMD"}
            vetted = subprocess.run(
                [soroban, "vet", "--module", module], env=clean, stdout=subprocess.PIPE, check=True
            ).stdout
            self.assertEqual(vetted, b"valid: 0 functions, 0 imports, 0 exports, 0 pages\n")
            files = [os.path.join(folder, "bin", "soroban-files"), "lint", module]
            linted = subprocess.run(files, cwd=folder, env=clean, stdout=subprocess.PIPE, check=True).stdout
            self.assertEqual(linted, b"warning: no export can be called\n")
            with open(os.path.join(folder, "bin", "soroban_cmd"), "ab") as file:
                file.write(b"\0")
            changed = subprocess.run([soroban, "version"], env=clean, stderr=subprocess.PIPE, check=False)
            self.assertEqual(changed.returncode, REJECTED)
            self.assertIn(b"is not the program that was installed", changed.stderr)


if __name__ == "__main__":
    unittest.main()
