#!/usr/bin/env python3
"""That crates of definitions stand on no code, and that no crate cites another crate's proofs but its published lemmas.

A crate named `*_spec` stands only on crates of definitions, on types and on their codecs (UNDER_DEFINITIONS). A crate cites no
other crate's proofs/ but the lemmas that the other one publishes on its page proofs/Lemmas.antt: all other pages there are
private.

python3 tools/crossings.py --check    says which rules are broken; the status is 1 if any is
python3 tools/crossings.py --list     prints how often each crate's published lemmas are cited, and by which crates
"""
import collections
import re
import sys

from layers import TOP, crates

UNDER_DEFINITIONS = """
    xdr_spec ledger_spec wasm_spec host_spec module_spec auth_spec call_spec apply_spec stage_runs list_laws
    byte_list budget_meter value_types file_version ledger_types tx_parts invoke_types auth_types tx_results host_interface
    xdr_core value_xdr spelled_order tx_xdr wasm_read
""".split()

# `Rattle.CRATE.proofs.PAGE` in a use line, and `CRATE::proofs::PAGE` in a tactic.
CITATION = re.compile(r"Rattle\.(\w+)\.proofs\.([\w.+-]*\w)|\b(\w+)::proofs::(\w+)")
LEMMAS = "Lemmas"
# Pages that the toolchain makes end with one of these words.
MADE = ("TheSendSync", "TheKnot")


def standing():
    """Yields each crate of definitions with a crate of code that it stands on."""
    for name, (needs, _) in crates().items():
        if name.endswith("_spec"):
            yield from ((name, need) for need in sorted(needs) if need not in UNDER_DEFINITIONS)


def citations():
    """Yields the citing crate, the cited one, the page, and the citing file, for each citation of another crate's proofs."""
    names = crates()
    for name in names:
        for part, ending in (("src", "*.rt"), ("specs", "*.antt"), ("proofs", "*.antt")):
            for path in sorted((TOP / "crates" / name / part).rglob(ending)):
                for match in CITATION.finditer(path.read_text(encoding="utf-8")):
                    other, page = match[1] or match[3], match[2] or match[4]
                    if other in names and other != name and not page.endswith(MADE):
                        yield name, other, page, path


def open_pages():
    """Yields each page of proofs that is not private, but the page of published lemmas."""
    for path in sorted((TOP / "crates").glob("*/proofs/Lib.antt")):
        for page in re.findall(r"^pub mod (\w+)", path.read_text(encoding="utf-8"), re.M):
            if page != LEMMAS:
                yield path, page


def faults():
    """Yields a line for each rule that is broken."""
    for name, other in standing():
        yield f"{name} is a crate of definitions, and stands on {other}"
    for _, other, page, path in citations():
        if page != LEMMAS:
            yield f"{path.relative_to(TOP)} cites {other}'s proofs/{page}: publish the lemma on {other}'s proofs/{LEMMAS}.antt"
    for path, page in open_pages():
        yield f"{path.relative_to(TOP)}: the page {page} is not private"


def show():
    cited = collections.defaultdict(collections.Counter)
    for name, other, _, _ in citations():
        cited[other][name] += 1
    for other, names in sorted(cited.items(), key=lambda row: (-row[1].total(), row[0])):
        print(f"{other}: {names.total()}, by " + ", ".join(f"{name} {count}" for name, count in names.most_common()))


def main():
    if sys.argv[1:] == ["--list"]:
        show()
    elif sys.argv[1:] != ["--check"]:
        sys.exit(__doc__)
    elif lines := list(faults()):
        sys.exit("\n".join(lines))


if __name__ == "__main__":
    main()
