#!/usr/bin/env python3
"""Keeps the table of lines in docs/COSTS.md in step with the crates.

python3 tools/lines.py            writes the table anew
python3 tools/lines.py --check    says whether the table is what this writes; the status is 1 if it is not
"""
import pathlib
import sys

TOP = pathlib.Path(__file__).resolve().parent.parent
PAGE = TOP / "docs" / "COSTS.md"
HEAD = "| crate | code | tests | definitions | proofs |\n|---|---|---|---|---|\n"


def crates():
    """Returns the names of the crates, in the order of crates.txt."""
    lines = (TOP / "crates.txt").read_text(encoding="utf-8").split("\n")
    return [line.partition(":")[0].strip() for line in lines if line.strip() and not line.startswith("#")]


def count(files):
    return sum(file.read_text(encoding="utf-8").count("\n") for file in files)


def sizes(crate):
    """Returns the lines of code, tests, definitions and proofs of a crate."""
    folder = TOP / "crates" / crate
    source = list((folder / "src").rglob("*.rt"))
    tests = [file for file in source if "tests" in file.relative_to(folder / "src").as_posix()]
    code = [file for file in source if file not in tests]
    return [count(code), count(tests), count((folder / "specs").rglob("*.antt")), count((folder / "proofs").rglob("*.antt"))]


def row(name, numbers):
    return f"| {name} | " + " | ".join(f"{number:,}" for number in numbers) + " |\n"


def main():
    page = PAGE.read_text(encoding="utf-8")
    start = page.index(HEAD) + len(HEAD)
    end = page.index("\n\n", start) + 1
    rows = {name: sizes(name) for name in crates()}
    table = "".join(row(f"`{name}`", numbers) for name, numbers in rows.items())
    table += row("all", [sum(column) for column in zip(*rows.values())])
    anew = page[:start] + table + page[end:]
    if sys.argv[1:] == ["--check"]:
        if page != anew:
            sys.exit("docs/COSTS.md is not in step with the crates: run tools/lines.py")
    elif sys.argv[1:]:
        sys.exit(__doc__)
    else:
        PAGE.write_text(anew, encoding="utf-8")


if __name__ == "__main__":
    main()
