#!/usr/bin/env python3
"""Keeps crates.txt in step with what crates name, and the picture of the crates in docs/ARCHITECTURE.md with crates.txt.

python3 tools/layers.py            writes the picture anew
python3 tools/layers.py --check    says whether the picture is what this writes, and whether each crate stands in crates.txt with
                                   exactly the libraries that its files name; the status is 1 if not

`rt` lists the crates below a crate once for each way to them, so a crate that stands on others through a third one leaves them
out.
"""
import pathlib
import re
import sys

TOP = pathlib.Path(__file__).resolve().parent.parent
PAGE = TOP / "docs" / "ARCHITECTURE.md"
START, END = "<!-- crates -->\n", "<!-- end of crates -->\n"


def crates():
    """Returns the crates with the crates of this repository that each lists, and the kit's crates that it lists."""
    listed = {}
    for line in (TOP / "crates.txt").read_text(encoding="utf-8").split("\n"):
        name, colon, needs = line.partition(":")
        if colon and not name.startswith("#"):
            listed[name.strip()] = needs.split()
    return {
        name: ([need for need in needs if need in listed], [need for need in needs if need not in listed])
        for name, needs in listed.items()
    }


def named(name):
    """Returns the words of a crate's files that can be names of libraries, with those of its tests and without its edits."""
    words = set()
    for folder in ("src", "specs", "proofs", "tests"):
        for file in (TOP / "crates" / name / folder).glob("**/*"):
            if file.suffix in (".rt", ".antt"):
                text = file.read_text(encoding="utf-8")
                words.update(re.findall(r"\bRattle\.(\w+)", text), re.findall(r"\b(\w+)::", text) if file.suffix == ".rt" else ())
    return words


def faults():
    """Returns a line for each crate that stands in crates.txt with other libraries than its files name."""
    listed = crates()
    libraries = set(listed).union(*(kit for _, kit in listed.values()))
    lines = []
    for name, (own, kit) in listed.items():
        words = named(name) & libraries - {name}
        for each in sorted(words - {*own, *kit}):
            lines.append(f"{name} names {each}, which crates.txt leaves out")
        for each in sorted({*own, *kit} - words):
            lines.append(f"{name} stands on {each} in crates.txt, and names it nowhere")
    return lines


def below(name, needs, known):
    """Returns every crate that a crate stands on, directly or not."""
    if name not in known:
        known[name] = set(needs[name]).union(*(below(need, needs, known) for need in needs[name]))
    return known[name]


def layer(name, needs, known):
    """Returns the length of the longest chain of crates below a crate."""
    if name not in known:
        known[name] = 1 + max((layer(need, needs, known) for need in needs[name]), default=-1)
    return known[name]


def picture():
    """Returns a line for each crate, lowest layer first, with the crates right below it and the kit's crates that it adds."""
    listed = crates()
    needs = {name: own for name, (own, _) in listed.items()}
    under, height = {}, {}
    rows = []
    for name in needs:
        below(name, needs, under)
        layer(name, needs, height)
    for name in sorted(needs, key=lambda each: (height[each], list(needs).index(each))):
        direct = [need for need in needs[name] if not any(need in under[other] for other in needs[name])]
        kit = [each for each in listed[name][1] if not any(each in listed[need][1] for need in under[name])]
        rows.append((height[name], name, " ".join(direct) + (" | " + " ".join(kit) if kit else "")))
    width = max(len(name) for _, name, _ in rows)
    lines, last = [], None
    for at, name, rest in rows:
        lines.append(f"{at if at != last else '':>2}  {name:<{width}}  {rest}".rstrip())
        last = at
    return "```text\n" + "\n".join(lines) + "\n```\n"


def main():
    page = PAGE.read_text(encoding="utf-8")
    start, end = page.index(START) + len(START), page.index(END)
    anew = page[:start] + picture() + page[end:]
    if sys.argv[1:] == ["--check"]:
        wrong = faults()
        if page != anew:
            wrong.append("docs/ARCHITECTURE.md is not in step with crates.txt: run tools/layers.py")
        if wrong:
            sys.exit("\n".join(wrong))
    elif sys.argv[1:]:
        sys.exit(__doc__)
    else:
        PAGE.write_text(anew, encoding="utf-8")


if __name__ == "__main__":
    main()
