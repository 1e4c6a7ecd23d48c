#!/usr/bin/env python3
"""Keeps docs/RULES.md and docs/PROMISES.md in step with the definitions and the code.

python3 tools/rules.py --check          says of each row whether its definition and its function are there, and whether the
                                        function's contract reaches the definition, and which pages of specs/ and definitions other
                                        pages name that are nowhere; the status is 1 if anything is wrong
python3 tools/rules.py --way RULE       prints the way from function to definition for each row that has the text RULE
python3 tools/rules.py --near NAME      prints the functions whose contracts reach the definition NAME in the fewest steps

A contract reaches a definition if what it ensures cites it, or cites a definition whose text reaches it. Names are found
through the `use` lines.
"""
import collections
import pathlib
import re
import sys

from definitions import ENDS, OWNER, TOP, cited, crates, imports, read_pages

PAGES = [TOP / "docs" / name for name in ("RULES.md", "PROMISES.md")]
LINK = re.compile(r"\[`([^`]+)`\]\(\.\./crates/(\w+)/(specs|src)/([\w/]+)\.(?:antt|rt)\)((?:/\w+)*)")
FUNCTION = re.compile(r"( *)(?:pub(?:\(\w+\))? )?(?:const )?fn (\w+)")
CLAUSE = re.compile(r"^ *(?:ensures\*?|ghost) (\w+)\b")
NAMED = re.compile(r"`(\w+)/specs/(\w+)`(?:: ((?:`\w+`(?:, | and )?)+))?")

Contract = collections.namedtuple("Contract", "crate file name clauses cites")


def contract_lines(lines):
    """Yields for each function its name, with its type before it, and the lines from its name to its body."""
    owner, margin, name, own = None, None, None, []
    for line in lines:
        if margin is None and line[:1].strip():
            found = OWNER.match(line)
            owner = (found[2] or found[3] or found[4]) if found else None
        found = FUNCTION.match(line)
        if margin is None and found:
            margin, own = found[1], []
            name = f"{owner}::{found[2]}" if found[1] and owner else found[2]
        if margin is not None:
            own.append(line.partition("//")[0])
            if line in (margin + "{", margin + "{}") or line.endswith(" {}") or ENDS.search(line):
                yield name, own
                margin = None


def guaranteed(lines):
    """Returns the lines of a contract without those of its conditions."""
    kept, is_condition = [], False
    for line in lines:
        if line.strip():
            is_condition = line.lstrip().startswith("requires") or is_condition and not line.lstrip().startswith(("ensures", "ghost", "{"))
        if not is_condition:
            kept.append(line)
    return kept


def contracts():
    """Returns what the contracts of all functions of all crates guarantee."""
    found = []
    for crate in crates():
        source = TOP / "crates" / crate / "src"
        for file in sorted(source.rglob("*.rt")):
            lines = file.read_text(encoding="utf-8").split("\n")
            known = imports([line.strip() for line in lines])
            where = file.relative_to(source).with_suffix("").as_posix()
            for name, own in contract_lines(lines):
                clauses = {match[1] for line in own if (match := CLAUSE.match(line))}
                found.append(Contract(crate, where, name, clauses, set(cited("\n".join(guaranteed(own)), *known))))
    return found


class Citing:
    """Which definitions each definition cites."""

    def __init__(self, pages):
        self.pages = pages
        self.known = {}

    def named(self, key, name):
        """Returns the definition that a name of a page stands for: itself, or the one that has it as a constructor."""
        page = self.pages.get(key)
        return (key, page.owners.get(name, name)) if page else None

    def cites(self, definition):
        """Returns what the text of a definition cites."""
        if definition not in self.known:
            key, name = definition
            page = self.pages[key]
            names, aliases = page.imports
            here = {**names, **{own: (key, own) for own in page.owners}}
            text = "\n".join(page.texts.get(name, []))
            named = {self.named(*other) for other in cited(text, here, aliases)}
            self.known[definition] = named - {None, definition}
        return self.known[definition]

    def way(self, roots, goal):
        """Returns a shortest list of definitions that leads from one of the roots to the goal, or None."""
        starts = sorted({self.named(*root) for root in roots} - {None})
        before, waiting = {start: None for start in starts}, collections.deque(starts)
        while waiting:
            here = waiting.popleft()
            if here == goal:
                steps = []
                while here:
                    steps.append(here)
                    here = before[here]
                return steps[::-1]
            for other in sorted(self.cites(here)):
                if other not in before:
                    before[other] = here
                    waiting.append(other)
        return None


def rows(text, page="RULES.md"):
    """Yields the cells of each table row that has a definition and code, with its page and line."""
    columns = None
    for number, line in enumerate(text.split("\n"), 1):
        if not line.startswith("|"):
            columns = None
            continue
        cells = [cell.strip() for cell in line.strip("|").split(" | ")]
        if columns is None:
            heads = [cell.strip("| ") for cell in cells]
            columns = (heads.index("definition"), heads.index("code")) if {"definition", "code"} <= set(heads) else ()
        elif columns and not line.startswith("|--"):
            yield f"docs/{page}:{number}", cells[0], cells[columns[0]], cells[-1]


def all_rows():
    """Yields the rows of both pages."""
    for page in PAGES:
        yield from rows(page.read_text(encoding="utf-8"), page.name)


def judged_row(row, pages, citing, functions):
    """Returns what is wrong in a row, and the ways from its functions to its definitions."""
    _, _, definitions, code = row
    wrong, goals, roots, ways = [], [], [], []
    for name, crate, _, page, _ in LINK.findall(definitions):
        key = (crate, page)
        if key not in pages or name not in pages[key].owners:
            wrong.append(f"{crate}/specs/{page} has no definition {name}")
        else:
            goals.append(citing.named(key, name))
    for name, crate, _, file, clauses in LINK.findall(code):
        found = [each for each in functions if (each.crate, each.file, each.name) == (crate, file, name)]
        wrong += [] if found else [f"crates/{crate}/src/{file}.rt has no function {name}"]
        wrong += [f"{name} has no clause {each}" for each in clauses.split("/")[1:] if not any(each in f.clauses for f in found)]
        roots += [(name, set().union(*(each.cites for each in found)))] if found else []
    if not wrong and not (goals and roots):
        wrong.append("it names no definition, or no function")
    reached = {goal: [] for goal in goals}
    for name, cites in roots:
        own = [(goal, way) for goal in goals if (way := citing.way(cites, goal))]
        wrong += [] if own or wrong else [f"the contract of {name} reaches no definition of the row"]
        for goal, way in own:
            reached[goal].append(name)
            ways.append(f"{name}: " + " > ".join(f"{key[0]}/{key[1]}.{each}" for key, each in way))
    wrong += [f"no contract of the row reaches {goal[1]}" for goal in goals if not reached[goal] and not wrong]
    return wrong, ways


def named_nowhere(text, pages):
    """Yields the pages of specs/ that a text names in full and that are nowhere, and their definitions that are not there."""
    for crate, page, names in NAMED.findall(text):
        if (crate, page) not in pages:
            yield f"there is no {crate}/specs/{page}"
            continue
        for name in re.findall(r"\w+", names):
            if name not in pages[crate, page].owners:
                yield f"{crate}/specs/{page} has no definition {name}"


def check():
    """Judges each row of the pages. Returns the status."""
    pages, functions = read_pages(), contracts()
    citing = Citing(pages)
    count, bad = 0, 0
    for row in all_rows():
        count += 1
        for what in judged_row(row, pages, citing, functions)[0]:
            bad += 1
            print(f"{row[0]}: {row[1][:60]}: {what}")
    for file in [TOP / "CONTRIBUTING.md", *sorted((TOP / "docs").glob("*.md"))]:
        for what in named_nowhere(file.read_text(encoding="utf-8"), pages):
            bad += 1
            print(f"{file.relative_to(TOP)}: {what}")
    print(f"{count} rows, {bad} to mend")
    return 1 if bad or not count else 0


def print_ways(text):
    """Prints the way from function to definition for each row with the text."""
    pages, functions = read_pages(), contracts()
    citing = Citing(pages)
    for row in all_rows():
        if text in row[1]:
            wrong, ways = judged_row(row, pages, citing, functions)
            print("\n".join([row[1], *("  " + line for line in wrong + ways)]))


def near(name, shown=12):
    """Prints the functions that reach a definition of this name in the fewest steps."""
    pages, functions = read_pages(), contracts()
    citing = Citing(pages)
    for key in sorted(key for key in pages if name in pages[key].owners):
        print(f"{key[0]}/specs/{key[1]}: {name}")
        found = []
        for each in functions:
            way = citing.way(each.cites, citing.named(key, name))
            found += [(len(way), each, way)] if way else []
        for _, each, way in sorted(found, key=lambda one: one[:2])[:shown]:
            steps = " > ".join(f"{page[0]}/{page[1]}.{step}" for page, step in way)
            print(f"  {each.crate}/src/{each.file}.rt {each.name}: {steps}")


def main():
    if sys.argv[1:] == ["--check"]:
        sys.exit(check())
    if len(sys.argv) == 3 and sys.argv[1] == "--way":
        print_ways(sys.argv[2])
    elif len(sys.argv) == 3 and sys.argv[1] == "--near":
        near(sys.argv[2])
    else:
        sys.exit(__doc__)


if __name__ == "__main__":
    main()
