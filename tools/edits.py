#!/usr/bin/env python3
"""Tries edits that the gate leaves out. An edit changes the meaning of the code, and the prover has to refuse it.

python3 tools/edits.py [--jobs N] [--gate] [NAME..]   tries the edits of crates/NAME/edits/, or of all crates
python3 tools/edits.py --check                        proves nothing, and says which edits cannot be made

Edits of different functions of a crate are made together in one copy of it, and the prover is asked for these functions
alone: a function rests on the contracts of others, and not on their bodies. An edit that is not refused so is made by itself,
and the whole crate is checked, as the gate does. Checks begin with a copy of what the crate's own check kept in out/. N checks
run side by side, 2 without --jobs. With --gate the edits of must-fail/ are tried, which the gate tries, too. Libraries that
are not built yet are proved first. For each edit one line says what came of it, and the last line counts:

    refused by a goal        a contract or an invariant of the edited code is not proved
    refused by names alone   a proof cites what the edit removed, or is not read: this tells nothing of the contract
    NOT REFUSED              the crate is still proved: the contract is too weak, or the edit changes no meaning
    BAD EDIT                 an old text does not stand exactly once in its file, or the new text does not compile

The status is 0 if all edits are refused.
"""
import argparse
import os
import pathlib
import re
import shutil
import signal
import subprocess
import sys
import tempfile
from concurrent.futures import ThreadPoolExecutor

import prove
import quick_rt

FOLDERS = {"edits": "tried by this tool", "must-fail": "tried by the gate"}
# What is printed of an edit, by the words of the kit's own report, in which the first that fits counts.
OUTCOMES = {
    "only because a proof file names": "refused by names alone",
    "refused, as it must be": "refused by a goal",
    "NOT REFUSED": "NOT REFUSED",
    "BAD EDIT": "BAD EDIT",
}
UNPROVED = "NOT PROVED"
FUNCTION = re.compile(r"^( *)(?:pub(?:\([a-z]+\))? )?(?:const )?fn (\w+)", re.M)
BLOCK = re.compile(r"^impl(?:<[^{]*?>)? (?:(\w+)(?:<[^{]*?>)? for )?(\w+)", re.M)
# The prover's words for a proof that cites what the code has no more, where the kit's own report decides, or is not read.
NAMES = re.compile(r"not in scope|has no |not admitted|does not read")
UNREAD = "rattle does not read"


def edits_of(crate, folder):
    """Returns the edits of a crate's folder."""
    return sorted((crate / folder).glob("*.edit"))


def replaced(crate, text, made=()):
    """Makes an edit over the texts that are made. Returns the texts of all files that are changed, by their path, or raises
    ValueError."""
    texts, path, old = dict(made), None, None
    for line in text.split("\n"):
        word, _, rest = line.partition(":")
        rest = rest[1:] if rest.startswith(" ") else rest
        if word == "file":
            path = rest.strip()
            if pathlib.PurePath(path).parts[0] not in ("src", "specs", "proofs") or ".." in path:
                raise ValueError(f"{path} is no file of src/, specs/ or proofs/")
            if path not in texts:
                texts[path] = (crate / path).read_text(encoding="utf-8")
        elif word == "old" and rest:
            old = rest
        elif word == "new":
            if path is None or old is None:
                raise ValueError("a line new: stands before its lines file: and old:")
            if texts[path].count(old) != 1:
                raise ValueError(f"the old text stands {texts[path].count(old)} times in {path}: {old.strip()}")
            texts[path], old = texts[path].replace(old, rest), None
        elif line.strip():
            raise ValueError(f"a line begins with none of file:, old:, new:  {line.strip()}")
    if not texts or old is not None:
        raise ValueError("it has no pair of lines old: and new:, or one of them alone")
    return texts


def function_at(text, place, module):
    """Returns the end of the path of the function in which a place of a module's text lies, or None."""
    found = [it for it in FUNCTION.finditer(text, 0, text.find("\n", place)) if it.start() <= place]
    if not found or re.search(rf"^{found[-1][1]}}}", text[found[-1].start() : place], re.M):
        return None
    name, blocks = found[-1][2], [it for it in BLOCK.finditer(text, 0, found[-1].start())]
    if not found[-1][1]:
        return "::".join([*module, name])
    # The path of a method has the module of its type. The functions of `impl Xdr for Memo` have the name MemoXdr.
    return f"{blocks[-1][2]}{blocks[-1][1] or ''}::{name}" if blocks else None


def functions_of(crate, text):
    """Returns the paths of the functions that an edit changes, or nothing if it changes anything else."""
    paths, path = [], None
    for line in text.split("\n"):
        word, _, rest = line.partition(":")
        if word == "file":
            path = pathlib.PurePath(rest.strip())
        elif word == "old":
            source = (crate / path).read_text(encoding="utf-8") if path.suffix == ".rt" else ""
            module = [it for it in path.with_suffix("").parts[1:] if it not in ("lib", "main")]
            paths.append(function_at(source, source.find(rest[1:] if rest.startswith(" ") else rest), module))
    return [*dict.fromkeys(paths)] if None not in paths else []


def rounds_of(crate, edits):
    """Puts edits of different functions together. Returns the functions of each edit and the texts of each round, and the
    edits that change anything else."""
    rounds, others = [], []
    for edit in edits:
        text = edit.read_text(encoding="utf-8")
        functions = functions_of(crate, text)
        for functions_made, texts in rounds if functions else []:
            used = {it for each in functions_made.values() for it in each}
            try:
                more = replaced(crate, text, texts)
            except ValueError:
                continue
            if not used & {*functions}:
                functions_made[edit] = functions
                texts.update(more)
                break
        else:
            try:
                rounds.append(({edit: functions}, replaced(crate, text))) if functions else others.append(edit)
            except ValueError:
                others.append(edit)
    return rounds, others


def refusal(report, crate, function):
    """Returns what the prover's report says of an edited function: an outcome and a goal, or None if it does not decide."""
    state = re.search(rf"^fn {crate}::(?:\S+::)?{function}: (.*)$", report, re.M)
    if not state or not re.match("no proof|not proved", state[1]):
        return None
    goals = re.search(r"`search` did not prove (`[^;]*)", state[1])
    if goals:
        return "refused by a goal", f"{goals[1].strip()} of {function}"
    errors = re.findall(rf"^\S*proofs/(?:\S+/)?{function.replace('::', '/')}/\S+ error: .*$", report, re.M)
    if any(not NAMES.search(it) for it in errors):
        return "refused by a goal", next(it for it in errors if not NAMES.search(it))[:200]
    return None


def faults_of(crate):
    """Says which files in the crate's folders of edits are no edits, or cannot be made."""
    for folder in FOLDERS:
        for file in sorted((crate / folder).rglob("*")):
            name = f"{crate.name}/{folder}/{file.relative_to(crate / folder)}"
            if file.parent != crate / folder or file.suffix != ".edit":
                yield f"{name}: an edit is a file NAME.edit right in {folder}/"
                continue
            try:
                texts = replaced(crate, file.read_text(encoding="utf-8"))
                if all(text == (crate / path).read_text(encoding="utf-8") for path, text in texts.items()):
                    yield f"{name}: it changes nothing"
            except (OSError, UnicodeDecodeError, ValueError) as error:
                yield f"{name}: {error}"


def check(crates):
    """Says which edits cannot be made, and counts the others. Returns the status."""
    faults = [fault for it in crates for fault in faults_of(it)]
    for it in faults:
        print(it)
    counts = [f"{sum(len(edits_of(it, folder)) for it in crates)} {what}" for folder, what in FOLDERS.items()]
    print(f"edits: {', '.join(counts)}, {len(faults)} of them wrong")
    return 1 if faults else 0


def outcome(report):
    """Returns what came of an edit, and the first goal that failed or what is wrong, from the kit's report."""
    for words, found in OUTCOMES.items():
        if words in report:
            # The kit puts its advice between the first words and what is wrong.
            said = report.partition(words)[2].partition("): " if "names" in words else ": ")[2].partition("\n")[0]
            return ("refused by names alone" if UNREAD in said else found), said
    return "BAD EDIT", report


def tally(outcomes):
    """Returns the last line, and the status."""
    kinds = [*dict.fromkeys(OUTCOMES.values()), UNPROVED]
    counts = [f"{outcomes.count(it)} {it}" for it in kinds if outcomes.count(it) or it == "refused by a goal"]
    is_well = all(it.startswith("refused") for it in outcomes)
    return f"{len(outcomes)} edits: {', '.join(counts)}", 0 if is_well else 1


def load_kit():
    """Returns the kit's command as a module, whose functions try an edit."""
    page = subprocess.run(["rt", "doc"], stdout=subprocess.PIPE, text=True, check=True).stdout.strip()
    kit = quick_rt.with_sums_kept(os.path.join(os.path.dirname(page), "bin", "rt"))
    if not all(hasattr(kit, it) for it in ("must_fail", "checked")):
        sys.exit("this kit has no parts that try one edit: move the edits to must-fail/ and call rt must-fail")
    # Its first call sets a signal's handler, which only the main thread may.
    kit.rtlib.guarded()
    return kit


class Trial:
    """The edits of one crate, and what the crate's check keeps, of which each check has a copy."""

    def __init__(self, kit, crate, edits, room):
        self.kit, self.crate, self.edits = kit, crate, edits
        self.folder, self.kept = pathlib.Path(crate.folder), room / crate.name

    def check(self, texts, flags=()):
        """Checks the crate with these texts in place of its own, over a copy of what is kept."""
        with tempfile.TemporaryDirectory() as room:
            shutil.copytree(self.kept, f"{room}/kept")
            return self.kit.checked(self.crate, texts, ["--jobs", "1", *flags], f"{room}/kept")

    def try_round(self, functions, texts):
        """Tries edits of different functions together. Returns what came of those that are refused."""
        only = [word for each in functions.values() for it in each for word in ("--only", it)]
        ran = self.check(texts, only)
        if ran.returncode != 1 or not re.search(r"^only=\d+ proved=\d+\s*\Z", ran.stdout, re.M):
            return {}
        # What is proved and built needs no second look.
        if not self.crate.is_built() and self.check({}, only).returncode:
            say(f"{self.crate.name}: the functions of its edits are not proved as they are")
            return {}
        found = {}
        for edit, paths in functions.items():
            refusals = [it for it in (refusal(ran.stdout, self.crate.name, path) for path in paths) if it]
            if refusals:
                found[edit] = self.tell(edit, *refusals[0])
        return found

    def is_proved(self):
        """Checks the whole crate as it is, over what is kept, so that edits which are made by themselves begin with that."""
        ran = self.kit.checked(self.crate, {}, ["--jobs", "1"], str(self.kept))
        if ran.returncode:
            say(f"{self.crate.name}: {UNPROVED}, so its edits say nothing: " + ran.stdout.strip().split("\n")[-1][:200])
        return ran.returncode == 0

    def try_alone(self, edit):
        """Tries one edit as the gate does. What is not refused so is tried once more from nothing."""
        with tempfile.TemporaryDirectory() as room:
            shutil.copytree(self.kept, f"{room}/kept")
            refused, report = self.kit.must_fail(self.crate, str(edit), ["--jobs", "1"], f"{room}/kept")
        if not refused and "NOT REFUSED" in report:
            _, report = self.kit.must_fail(self.crate, str(edit), ["--jobs", "1"])
        return self.tell(edit, *outcome(report))

    def tell(self, edit, found, said):
        say(f"{self.crate.name}/{edit.stem}: {found}{': ' if said else ''}{said}")
        return found

    def run(self, pool):
        """Returns what came of each edit."""
        if (self.folder / "out" / "incremental").is_dir():
            shutil.copytree(self.folder / "out" / "incremental", self.kept)
        self.kept.mkdir(exist_ok=True)
        try:
            found, (rounds, _) = {}, rounds_of(self.folder, self.edits)
            for each in [pool.submit(self.try_round, *it) for it in rounds]:
                found.update(each.result())
            left = [it for it in self.edits if it not in found]
            if left and not pool.submit(self.is_proved).result():
                found.update({it: UNPROVED for it in left})
                left = []
            found.update({edit: it.result() for edit, it in [(edit, pool.submit(self.try_alone, edit)) for edit in left]})
            return [found[it] for it in self.edits]
        finally:
            shutil.rmtree(self.kept, ignore_errors=True)


def attempt_all(names, folder, jobs):
    """Tries the edits of the crates' folder, says what comes of each, and returns the status."""
    edits = {it: edits_of(prove.CRATES / it, folder) for it in names}
    edits = {it: found for it, found in edits.items() if found}
    if not edits:
        print(f"there are no edits in {folder}/ of {', '.join(names)}")
        return 0
    kit, known = load_kit(), {}
    crates = {it: kit.rtlib.Crate(str(prove.CRATES / it), str(prove.ROOT), known) for it in edits}
    lacking = [dep.name for it in crates.values() for dep in it.deps if not dep.is_built()]
    if lacking and prove.prove([*dict.fromkeys(lacking)], jobs):
        return 1
    with tempfile.TemporaryDirectory(prefix="edits-") as room:
        # The kit makes its copies there, too.
        tempfile.tempdir = room
        for it in (signal.SIGINT, signal.SIGTERM, signal.SIGHUP):
            signal.signal(it, lambda number, _: (prove.remove(pathlib.Path(room)), os._exit(128 + number)))
        trials = [Trial(kit, crate, edits[it], pathlib.Path(room)) for it, crate in crates.items()]
        # Threads of their own begin the crates, so that a crate which waits for its own check takes no place of a check.
        with ThreadPoolExecutor(jobs) as pool, ThreadPoolExecutor(jobs) as begin:
            outcomes = [found for each in begin.map(lambda it: it.run(pool), trials) for found in each]
    line, status = tally(outcomes)
    say(line)
    return status


def say(line):
    print(line, flush=True)


def main():
    parser = argparse.ArgumentParser(usage=__doc__.split("\n\n")[1])
    parser.add_argument("names", nargs="*")
    parser.add_argument("--jobs", type=int, default=2)
    parser.add_argument("--gate", action="store_true")
    parser.add_argument("--check", action="store_true")
    given = parser.parse_args()
    names = given.names or [*prove.read_crates()]
    unknown = [it for it in names if not (prove.CRATES / it).is_dir()]
    if unknown:
        parser.error(f"there is no crate {', '.join(unknown)}")
    if given.check:
        return check([prove.CRATES / it for it in names])
    return attempt_all(names, "must-fail" if given.gate else "edits", given.jobs)


if __name__ == "__main__":
    sys.exit(main())
