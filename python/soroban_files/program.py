"""Runs the built program over files in a folder of their own."""
from __future__ import annotations

import json
import os
import re
import subprocess
import tempfile
from typing import Dict, List, NamedTuple, Optional, Tuple

from . import schema
from .xdr import Json

VARIABLE, VARIABLE_WHY = "SOROBAN_CMD", "SOROBAN_WHY"
CRATES = os.path.join(os.path.dirname(os.path.dirname(os.path.dirname(os.path.abspath(__file__)))), "crates")
BUILT = os.path.join(CRATES, "soroban_cmd", "out", "soroban_cmd")
BUILT_WHY = os.path.join(CRATES, "soroban_why", "out", "soroban_why")


class NoProgram(RuntimeError):
    """There is no built program at the path."""


class Refused(RuntimeError):
    """The program refused its input: the status and the line."""

    def __init__(self, code: int, said: str) -> None:
        super().__init__(f"status {code}: {said.strip() or 'nothing was said'}")
        self.code = code
        self.said = said


class Ran(NamedTuple):
    """A run of the program: its status, what it said, and all files of its folder."""

    code: int
    said: str
    files: Dict[str, bytes]


class Simulated(NamedTuple):
    """What `simulate` found: the file, as JSON, and the sums of the run."""

    soroban_data: Json
    result: Json
    success: Optional[Json]
    instructions: int
    memory: int


class Recorded(NamedTuple):
    """What `record` found: the authorisation entries, and whether a demand came in a call whose failure was caught."""

    entries: List[Json]
    caught: bool


class Applied(NamedTuple):
    """What `apply` made: the report as JSON, its file, the file of the next ledger, and the change log if it was asked for."""

    report: Json
    report_file: bytes
    ledger_file: bytes
    log_file: Optional[bytes] = None


class Listed(NamedTuple):
    """What `apply-list` made: the report as JSON, its file, the file of the next ledger, and how many runs were kept."""

    report: Json
    report_file: bytes
    ledger_file: bytes
    kept: int


def path_of(path: Optional[str] = None) -> str:
    """Returns the path of the program: the one given, that of the variable SOROBAN_CMD, or that of the repository's build."""
    return os.path.abspath(path or os.environ.get(VARIABLE) or BUILT)


def is_there(path: Optional[str] = None) -> bool:
    """Says whether there is a program to run."""
    return os.access(path_of(path), os.X_OK)


def why_path() -> str:
    """Returns the path of the program that tells why: that of the variable SOROBAN_WHY, or that of the repository's build."""
    return os.path.abspath(os.environ.get(VARIABLE_WHY) or BUILT_WHY)


def can_tell_why() -> bool:
    """Says whether there is a program that tells why."""
    return os.access(why_path(), os.X_OK)


class Program:
    """The built program. Each run has a folder of its own."""

    def __init__(self, path: Optional[str] = None) -> None:
        self.path = path_of(path)
        if not is_there(path):
            raise NoProgram(
                f"there is no executable program at {self.path}: examples/unproved.sh --keep FILE builds one in about a minute, "
                f"and examples/run.sh proves one; {VARIABLE} names it"
            )

    def run(self, words: List[str], files: Dict[str, bytes], path: Optional[str] = None) -> Ran:
        """Runs the program, or the one at another path, with these words in a folder with these files."""
        with tempfile.TemporaryDirectory() as folder:
            for name, data in files.items():
                with open(os.path.join(folder, name), "wb") as file:
                    file.write(data)
            done = subprocess.run([path or self.path, *words], cwd=folder, stdout=subprocess.PIPE, check=False)
            left = {}
            for name in os.listdir(folder):
                with open(os.path.join(folder, name), "rb") as file:
                    left[name] = file.read()
        return Ran(done.returncode, done.stdout.decode("utf-8", "replace"), left)

    def done(self, words: List[str], files: Dict[str, bytes], path: Optional[str] = None) -> Ran:
        """Runs the program, which finds its files by the names of their options. Raises `Refused` unless the command is done."""
        ran = self.run([*words, *(word for name in files for word in (f"--{name}", name))], files, path)
        if ran.code:
            raise Refused(ran.code, ran.said)
        return ran

    def simulate(self, envelope: bytes, ledger: bytes, verdicts: bytes, close_time: int) -> Simulated:
        """Simulates an envelope on a ledger. Raises `Refused` if the program refuses a file."""
        words = ["simulate", "--close-time", str(close_time), "--out", "out"]
        ran = self.done(words, {"tx": envelope, "ledger": ledger, "verdicts": verdicts})
        found = schema.read(schema.SIMULATION, ran.files["out"])
        used = re.search(r"used (\d+) instructions, (\d+) memory", ran.said)
        instructions, memory = (int(number) for number in used.groups()) if used else (0, 0)
        return Simulated(found["soroban_data"], found["result"], found["success"], instructions, memory)

    def record(self, envelope: bytes, ledger: bytes, close_time: int, nonce: int, until: int) -> Recorded:
        """Finds the authorisation entries that a transaction needs. Raises `Refused` if the program refuses a file."""
        words = ["record", "--close-time", str(close_time), "--nonce", str(nonce), "--expiration", str(until), "--out", "out"]
        ran = self.done(words, {"tx": envelope, "ledger": ledger})
        return Recorded(schema.read(schema.ENTRIES, ran.files["out"]), "caught 1" in ran.said)

    def why(
        self,
        envelope: bytes,
        ledger: bytes,
        verdicts: bytes,
        close_time: int,
        is_declared: bool = False,
        is_json: bool = False,
    ) -> str:
        """Returns what soroban_why says of the run of an envelope: its trace, as lines or as a JSON document, and its result.

        The footprint is the one that the run needs, or the declared one. Raises `NoProgram` if soroban_why is not there.
        """
        words = ["--close-time", str(close_time)] + ["--record"] * (not is_declared) + ["--json"] * is_json
        return self.told(words, {"tx": envelope, "ledger": ledger, "verdicts": verdicts})

    def told(self, words: List[str], files: Dict[str, bytes]) -> str:
        """Returns what soroban_why says. Raises `NoProgram` if it is not there."""
        if not can_tell_why():
            raise NoProgram(
                f"there is no executable program at {why_path()}: tools/prove.py soroban_why proves it; {VARIABLE_WHY} names it"
            )
        return self.done(words, files, why_path()).said

    def why_at(
        self,
        tx_set: bytes,
        place: Tuple[int, int, int],
        ledger: bytes,
        verdicts: bytes,
        close_time: int,
        is_json: bool = False,
    ) -> str:
        """Returns what soroban_why says of the run of the transaction at a place of a set: its stage, cluster and place, from 0.

        Raises `Refused` if the set has a conflict or no such place, and `NoProgram` if soroban_why is not there.
        """
        words = ["--close-time", str(close_time)] + ["--json"] * is_json
        for name, number in zip(("stage", "cluster", "place"), place):
            words += [f"--{name}", str(number)]
        return self.told(words, {"set": tx_set, "ledger": ledger, "verdicts": verdicts})

    def trace(self, envelope: bytes, ledger: bytes, verdicts: bytes, close_time: int, is_declared: bool = False) -> Json:
        """Returns the document of `why`, decoded."""
        return json.loads(self.why(envelope, ledger, verdicts, close_time, is_declared, is_json=True).split("\n")[0])

    def apply(
        self,
        tx_set: bytes,
        ledger: bytes,
        verdicts: bytes,
        close_time: int,
        workers: int = 1,
        is_logged: bool = False,
    ) -> Applied:
        """Applies a set to a ledger, with a change log if asked for.

        Raises `Refused` if the program refuses a file, or finds a conflict.
        """
        words = ["apply", "--close-time", str(close_time), "--workers", str(workers), "--report", "report", "--ledger-out", "next"]
        ran = self.done(words + ["--log", "log"] * is_logged, {"set": tx_set, "ledger": ledger, "verdicts": verdicts})
        report, next_ledger = ran.files["report"], ran.files["next"]
        return Applied(schema.read(schema.REPORT, report), report, next_ledger, ran.files.get("log"))

    def apply_list(self, listed: bytes, ledger: bytes, verdicts: bytes, close_time: int, workers: int = 1) -> Listed:
        """Applies a list of envelopes, each with the footprint that its run needs. Raises `Refused` if a file is refused."""
        words = ["apply-list", "--close-time", str(close_time), "--workers", str(workers)]
        words += ["--report", "report", "--ledger-out", "next"]
        ran = self.done(words, {"list": listed, "ledger": ledger, "verdicts": verdicts})
        kept = re.search(r"^kept (\d+) of", ran.said, re.M)
        report = ran.files["report"]
        return Listed(schema.read(schema.REPORT, report), report, ran.files["next"], int(kept[1]) if kept else 0)

    def build(self, listed: bytes, clusters: int = 64) -> bytes:
        """Returns the file of the set that is built of a list of envelopes, with at most so many clusters a stage."""
        return self.done(["build", "--clusters", str(clusters), "--set", "set"], {"list": listed}).files["set"]

    def play(self, log: bytes, ledger: bytes, back: bool = False) -> bytes:
        """Returns the file of the ledger to which a change log leads. Raises `Refused` if the log does not fit."""
        words = ["play", "--back", "1" if back else "0", "--ledger-out", "next"]
        return self.done(words, {"log": log, "ledger": ledger}).files["next"]

    def vet(self, module: bytes) -> str:
        """Returns the line that `vet` says of a module."""
        return self.run(["vet", "--module", "module"], {"module": module}).said.strip()
