#!/usr/bin/env python3
"""Checks how code and definitions read: widths of lines, lengths of bodies, docstrings.

python3 tools/hygiene.py            says what breaks a rule; the status is 1 if anything does
python3 tools/hygiene.py --shrink   lowers the numbers of tools/hygiene_exempt.txt to what is there, and never raises one

    line    a line of src/ or specs/ has at most 130 columns, attributes apart
    body    the body of a function has fewer than 50 lines
    doc     each public item, and each function of a public trait, has a docstring, whose first line has words

A line `RULE CRATE COUNT WHY` of tools/hygiene_exempt.txt lets a crate break a rule so many times. If the crate breaks it less
often, the check fails until `--shrink` has run. So the list never grows by itself.
"""
import collections
import pathlib
import re
import sys

TOP = pathlib.Path(__file__).resolve().parent.parent
EXEMPT = "tools/hygiene_exempt.txt"
WIDTH = 130
BODY = 50
FUNCTION = re.compile(r"^( *)(?:pub(?:\([a-z]+\))? )?(?:const )?(?:unsafe )?(?:ghost )?fn (\w+)")
ITEM = re.compile(r"^( *)pub (?:const )?(?:unsafe )?(?:fn|struct|enum|union|trait|type|const|static) (\w+)")
TRAIT = re.compile(r"^( *)pub trait \w+")


def attributes(lines):
    """Returns the indices of the lines that attributes take."""
    found, inside = set(), False
    for index, line in enumerate(lines):
        inside = inside or line.lstrip().startswith(("#[", "#!["))
        if inside:
            found.add(index)
            inside = not line.rstrip().endswith("]")
    return found


def wide_lines(lines, skipped=()):
    """Yields the index of each line that is too wide, and what is wrong with it."""
    for index, line in enumerate(lines):
        if len(line) > WIDTH and index not in skipped:
            yield index, f"{len(line)} columns"


def begin_of_body(lines, index, indent):
    """Returns the index of the line with the brace that opens the body of the function at an index, or None if it has none."""
    for at in range(index, len(lines)):
        if at > index and (FUNCTION.match(lines[at]) or lines[at] == indent + "}"):
            return None
        if lines[at].startswith(indent) and lines[at][len(indent) :][:1] != " " and lines[at].endswith("{"):
            return at
    return None


def long_bodies(lines):
    """Yields the index of each function whose body is too long. A body ends at the first brace that stands as far left as `fn`."""
    for index, line in enumerate(lines):
        function = FUNCTION.match(line)
        start = begin_of_body(lines, index, function.group(1)) if function else None
        if start is not None:
            end = next((at for at in range(start, len(lines)) if lines[at] == function.group(1) + "}"), len(lines))
            if end - start - 1 >= BODY:
                yield index, f"`{function.group(2)}` has {end - start - 1} lines"


def public_items(lines):
    """Yields the index and the name of each public item, and of each function of a public trait."""
    trait = None
    for index, line in enumerate(lines):
        begins = TRAIT.match(line)
        if begins:
            trait = begins.group(1)
        elif trait is not None and line == trait + "}":
            trait = None
        item = ITEM.match(line)
        function = FUNCTION.match(line)
        if item:
            yield index, item.group(2)
        elif trait is not None and function and function.group(1) == trait + "    ":
            yield index, function.group(2)


def without_docs(lines, skipped):
    """Yields the index of each public item without a docstring, or whose docstring begins with no words."""
    for index, name in public_items(lines):
        at = index - 1
        while at >= 0 and (at in skipped or re.match(r" *//(?!/)", lines[at])):
            at -= 1
        first = None
        while at >= 0 and lines[at].lstrip().startswith("///"):
            first, at = lines[at].strip()[3:].strip(), at - 1
        if not first:
            yield index, f"`{name}` has no docstring"


def faults(top):
    """Yields the rule, the crate, the place and the words of each fault."""
    for file in sorted([*top.glob("crates/*/src/**/*.rt"), *top.glob("crates/*/specs/**/*.antt")]):
        path = file.relative_to(top)
        lines = file.read_text(encoding="utf-8").split("\n")
        rules = {"line": wide_lines(lines)}
        if file.suffix == ".rt":
            skipped = attributes(lines)
            rules = {"line": wide_lines(lines, skipped), "body": long_bodies(lines), "doc": without_docs(lines, skipped)}
        for rule, found in rules.items():
            for index, words in found:
                yield rule, path.parts[1], f"{path.as_posix()}:{index + 1}", words


def exempt(top):
    """Returns the lines of the list, and the number and the reason for each rule and crate."""
    lines = (top / EXEMPT).read_text(encoding="utf-8").split("\n")
    entries = {}
    for line in lines:
        if line.strip() and not line.startswith("#"):
            rule, crate, number, why = line.split(" ", 3)
            entries[rule, crate] = (int(number), why)
    return lines, entries


def shrink(top, counts):
    """Lowers the numbers of the list, and drops what is no longer needed."""
    kept, (lines, entries) = [], exempt(top)
    for line in lines:
        if line.strip() and not line.startswith("#"):
            rule, crate, _, why = line.split(" ", 3)
            number = min(entries[rule, crate][0], counts[rule, crate])
            if number == 0:
                continue
            line = f"{rule} {crate} {number} {why}"
        kept.append(line)
    (top / EXEMPT).write_text("\n".join(kept), encoding="utf-8")


def check(top):
    """Returns the lines to print, which are none if all rules hold."""
    found = list(faults(top))
    counts = collections.Counter((rule, crate) for rule, crate, _, _ in found)
    entries = exempt(top)[1]
    told = []
    for rule, crate, place, words in found:
        if counts[rule, crate] > entries.get((rule, crate), (0,))[0]:
            told.append(f"{place}: {rule}: {words}")
    for (rule, crate), (number, _) in entries.items():
        if counts[rule, crate] < number:
            told.append(f"{EXEMPT}: {rule} {crate} {number}: there are {counts[rule, crate]}: run tools/hygiene.py --shrink")
    return told


def main(words, top=TOP):
    if words == ["--shrink"]:
        shrink(top, collections.Counter((rule, crate) for rule, crate, _, _ in faults(top)))
    elif words:
        sys.exit(__doc__)
    told = check(top)
    print("\n".join(told) if told else "each line, body and public item is as it has to be")
    return 1 if told else 0


if __name__ == "__main__":
    sys.exit(main(sys.argv[1:]))
