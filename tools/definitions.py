#!/usr/bin/env python3
"""Keeps the documents in step with the definitions of specs/.

python3 tools/definitions.py            writes the list of definitions in docs/DEFINITIONS.md anew, under its table
python3 tools/definitions.py --check    says whether that list is what this writes; the status is 1 if it is not
python3 tools/definitions.py --trust    prints the pages that results depend on and that docs/TRUST.md does not list
"""
import pathlib
import re
import sys

TOP = pathlib.Path(__file__).resolve().parent.parent
PAGE = TOP / "docs" / "DEFINITIONS.md"
TRUST = TOP / "docs" / "TRUST.md"
DEFINITION = re.compile(r"(?:abbrev |unfoldable )*pub (?:unfoldable |abbrev )*(?:record |data |syntax )?(\S+)")
BLOCK = re.compile(r"(?:abbrev |unfoldable )*mutual$|module _")

# `--trust` begins with the definitions of this page, and with the public contracts of the crates that docs/TRUST.md names.
OUTPUTS = ("apply_spec", "Outputs")
USE = re.compile(r"(?:pub |ghost )?use Rattle\.(\w+)\.specs\.(\w+)(?:\.\{(.*)\}| as (\w+));?$")
PASSED = re.compile(r"^pub use Rattle\.(\w+)\.specs\.(\w+)$", re.M)
BEGIN = re.compile(r"(?:abbrev |unfoldable |pub )*(?:record |data )?(\S+?) *(?:[({].*)?:(?: |$)")
CONSTRUCTOR = re.compile(r"  (?:pub )?(\S+) :")
WORD = re.compile(r"[^\s(){}\[\];,«»]+")
FUNCTION = re.compile(r"( *)(pub )?fn (\w+)")
ENDS = re.compile(r"\) (?:-> .*)?\{$|^ *(?:fn .*|\).*|.*\});$")
OWNER = re.compile(r"(pub trait (\w+)|impl\b[^{]*? for (?:\w+::)*(\w+)|impl(?:<[^{]*?>)? (\w+))")
NAME = re.compile(r"`(\w+)`")
CRATES = r"(?:`\w+`(?:, | and ))*`\w+`"
ALL_PAGES = re.compile(rf"all pages of ({CRATES})")
SOME_PAGES = re.compile(rf"({CRATES}): ([A-Z]\w*(?:(?:, | and )[A-Z]\w*)*)")


def crates():
    """Returns the names of the crates, in the order of crates.txt."""
    lines = (TOP / "crates.txt").read_text(encoding="utf-8").split("\n")
    return [line.partition(":")[0].strip() for line in lines if line.strip() and not line.startswith("#")]


def comment_above(lines, at):
    """Returns the comment that ends right above a line."""
    first = at
    while first and lines[first - 1].startswith("-- ") and not lines[first - 1].startswith("-- ----"):
        first -= 1
    return " ".join(line[3:].strip() for line in lines[first:at])


def outdented(lines):
    """Returns the lines, with what stands in a block moved to the margin, in place of the line that opens the block."""
    moved, inside = [], False
    for line in lines:
        if line[:1].strip():
            inside = BLOCK.match(line) is not None
        if not (inside and line[:1].strip()):
            moved.append(line[2:] if inside else line)
    return moved


def definitions(lines):
    """Yields the name and the comment of each public definition, once."""
    seen = set()
    lines = outdented(lines)
    for at, line in enumerate(lines):
        found = DEFINITION.match(line)
        name = found and found[1].rstrip(":")
        if name and name != "mod" and name not in seen:
            seen.add(name)
            yield name, comment_above(lines, at)


def section(crate, file):
    """Returns what the page says of one file."""
    lines = file.read_text(encoding="utf-8").split("\n")
    head = next((at for at, line in enumerate(lines) if not line.startswith("-- ")), 0)
    rows = [f"- `{name}`" + (f": {said}" if said else "") for name, said in definitions(lines)]
    if not rows:
        return []
    return [f"### `{crate}/specs/{file.name}`", "", *([comment_above(lines, head), ""] if head else []), *rows, ""]


def page_text():
    """Returns docs/DEFINITIONS.md with the list of definitions anew."""
    page = PAGE.read_text(encoding="utf-8")
    said = [page[: page.index("\n## `")].rstrip("\n"), ""]
    for crate in crates():
        files = sorted((TOP / "crates" / crate / "specs").glob("*.antt"))
        rows = [row for file in files if file.name != "Lib.antt" for row in section(crate, file)]
        said += [f"## `{crate}`", "", *rows] if rows else []
    return "\n".join(said).rstrip("\n") + "\n"


# ---- the pages that results depend on


def imports(lines):
    """Returns the names that `use` lines import, each with its page and its name there, and the pages that have an alias."""
    names, aliases = {}, {}
    for line in lines:
        found = USE.match(line)
        if found and found[4]:
            aliases[found[4]] = (found[1], found[2])
        elif found:
            for item in found[3].split(","):
                there, _, here = item.strip().partition(" as ")
                names[here or there] = ((found[1], found[2]), there)
    return names, aliases


def cited(text, names, aliases):
    """Yields page and name of each word that is imported. A word behind a dot is a field, unless the dot follows an alias."""
    for word in WORD.findall(text):
        head, _, rest = word.lstrip("λ").partition(".")
        if head in names:
            yield names[head]
        if head in aliases and rest:
            yield aliases[head], rest.partition(".")[0]


class Definitions:
    """The definitions of one page: their texts by name, and the name of the definition that has each constructor."""

    def __init__(self, file):
        lines = outdented(file.read_text(encoding="utf-8").split("\n"))
        self.imports = imports(lines)
        self.texts, self.owners = {}, {}
        name, constructors = None, False
        for line in lines:
            if line.startswith(("use ", "--")):
                continue
            if line[:1].strip():
                first = line.split()[0]
                begins = BEGIN.match(line)
                name = begins[1] if begins and first not in self.owners else first
                constructors = re.search(r"\bdata ", line) is not None
                self.owners.setdefault(name, name)
            elif constructors and (found := CONSTRUCTOR.match(line)):
                self.owners.setdefault(found[1], name)
            if name:
                self.texts.setdefault(name, []).append(line.partition(" -- ")[0])


def read_pages():
    """Returns the pages of all crates, by crate and name."""
    files = [(crate, file) for crate in crates() for file in (TOP / "crates" / crate / "specs").glob("*.antt")]
    return {(crate, file.stem): Definitions(file) for crate, file in files if file.name != "Lib.antt"}


def passed_on():
    """Returns the page behind each name under which a crate passes on a page of a crate below."""
    libs = {crate: TOP / "crates" / crate / "specs" / "Lib.antt" for crate in crates()}
    found = {crate: PASSED.findall(file.read_text(encoding="utf-8")) for crate, file in libs.items() if file.exists()}
    return {(crate, page): (other, page) for crate, rows in found.items() for other, page in rows}


def home(key, passed):
    """Returns the page that a name leads to."""
    while key in passed:
        key = passed[key]
    return key


def exported(crate):
    """Returns the names that the crate's lib.rt makes public."""
    lib = (TOP / "crates" / crate / "src" / "lib.rt").read_text(encoding="utf-8")
    words = [word for used in re.findall(r"^pub use ([^;]*);", lib, re.M) for word in re.findall(r"\w+", used)]
    return {*words, *re.findall(r"^pub fn (\w+)", lib, re.M)}


def is_public(function, owner, names):
    """Says whether a function is public: one of lib.rt, or of a public trait, or a method of a public type."""
    if not function[1]:
        return function[2] is not None and function[3] in names
    if owner is None:
        return False
    return (owner[2] or owner[3]) in names or function[2] is not None and owner[4] in names


def cited_by_contracts(crate):
    """Yields what the contracts of the crate's public functions cite."""
    names = exported(crate)
    for file in sorted((TOP / "crates" / crate / "src").rglob("*.rt")):
        lines = file.read_text(encoding="utf-8").split("\n")
        known, owner, margin = imports(lines), None, None
        for line in lines:
            if found := OWNER.match(line):
                owner = found
            found = FUNCTION.match(line)
            if found and is_public(found, owner, names):
                margin = found[1]
            if margin is not None:
                yield from cited(line.partition("//")[0], *known)
                if line == margin + "{" or ENDS.search(line):
                    margin = None


def reached(roots, pages):
    """Returns the pages that the roots reach, each with a definition there and what cites it."""
    seen, found, waiting, passed = set(), {}, [(root, "a contract") for root in roots], passed_on()
    while waiting:
        (key, name), by = waiting.pop()
        key = home(key, passed)
        if key not in pages:
            continue
        page = pages[key]
        name = page.owners.get(name, name)
        if (key, name) in seen:
            continue
        seen.add((key, name))
        found.setdefault(key, f"{name}, cited by {by}")
        names, aliases = page.imports
        here = {**names, **{own: (key, own) for own in page.owners}}
        text = "\n".join(page.texts.get(name, []))
        waiting += [(other, f"{key[0]}/{key[1]}.{name}") for other in cited(text, here, aliases)]
    return found


def listed(text, pages):
    """Returns the pages that a text lists: "all pages of `a`, `b`", or "`a`: Page, Page"."""
    whole = [crate for names in ALL_PAGES.findall(text) for crate in NAME.findall(names)]
    rows = SOME_PAGES.findall(text)
    some = [(crate, page) for names, found in rows for crate in NAME.findall(names) for page in re.findall(r"[A-Z]\w*", found)]
    return {*some, *(key for key in pages if key[0] in whole)}


def part_of_trust(heading):
    """Returns the part of docs/TRUST.md under a heading."""
    text = TRUST.read_text(encoding="utf-8")
    start = text.index(f"## {heading}") + 3
    return text[start : text.index("\n## ", start)]


def lists_of_trust(pages):
    """Returns the pages of the table in docs/TRUST.md, those that compute what a law states, and those that may be skipped."""
    lines = part_of_trust("What a reader has to believe").split("\n")
    table = [line for line in lines if line.startswith("|")]
    computing = [line for line in lines if line.startswith("- Pages that compute")]
    others = [line for line in lines if line not in table + computing]
    return [listed("\n".join(part), pages) for part in (table, computing, others)]


def check_trust():
    """Prints the pages that the lists of docs/TRUST.md lack, and what is wrong in the lists."""
    pages = read_pages()
    table, computing, skipped = lists_of_trust(pages)
    outputs = reached([(OUTPUTS, name) for name in pages[OUTPUTS].owners], pages)
    proving = sorted(set(crates()) & set(NAME.findall(part_of_trust("Proved"))))
    contracts = reached([root for crate in proving for root in cited_by_contracts(crate)], pages)
    cites = {**contracts, **outputs}
    wrong = {key: "no such page" for key in (table | computing | skipped) - set(pages)}
    wrong.update({key: "in two lists" for key in table & computing | table & skipped | computing & skipped})
    wrong.update({key: f"decides what `apply` writes, and may not be skipped ({outputs[key]})" for key in skipped & set(outputs)})
    wrong.update({key: f"in no list ({cites[key]})" for key in set(cites) - table - computing - skipped})
    for (crate, page), what in sorted(wrong.items()):
        print(f"{crate}/{page}: {what}")
    print(f"{len(outputs)} pages decide what `apply` writes, {len(cites)} are cited in all, {len(wrong)} to mend")
    return 1 if wrong else 0


def main():
    if sys.argv[1:] == ["--trust"]:
        sys.exit(check_trust())
    elif sys.argv[1:] == ["--check"]:
        if PAGE.read_text(encoding="utf-8") != page_text():
            sys.exit("docs/DEFINITIONS.md is not in step with specs/: run tools/definitions.py")
    elif sys.argv[1:]:
        sys.exit(__doc__)
    else:
        PAGE.write_text(page_text(), encoding="utf-8")


if __name__ == "__main__":
    main()
