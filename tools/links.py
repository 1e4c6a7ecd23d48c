#!/usr/bin/env python3
"""Says which links of the documents lead to no file, or to no heading of a page; the status is 1 if there are any.

python3 tools/links.py
"""
import pathlib
import re
import sys

TOP = pathlib.Path(__file__).resolve().parent.parent
LINK = re.compile(r"(?:\]\(|src=\"|srcset=\")([^)\"\s]+)[)\"]")
FENCE = re.compile(r"^```.*?^```$", re.M | re.S)
HEADING = re.compile(r"^#+ (.*)$", re.M)


def pages():
    """Returns the documents."""
    return [TOP / "README.md", TOP / "CONTRIBUTING.md", *sorted((TOP / "docs").glob("*.md"))]


def text_of(page):
    """Returns the text of a page without its examples."""
    return FENCE.sub("", page.read_text(encoding="utf-8"))


def anchors(page):
    """Returns the anchors of the headings of a page, as they are made on the web."""
    plain = (re.sub(r"[`*]|\[|\]\([^)]*\)", "", found) for found in HEADING.findall(text_of(page)))
    return {re.sub(r"[^\w\- ]", "", each.lower()).replace(" ", "-") for each in plain}


def broken(page):
    """Yields the links of a page that lead nowhere."""
    for link in LINK.findall(text_of(page)):
        path, _, anchor = link.partition("#")
        target = (page.parent / path).resolve() if path else page
        if re.match(r"\w+:", link):
            continue
        if not target.exists() or anchor and anchor not in anchors(target):
            yield link


def main():
    wrong = [f"{page.relative_to(TOP)}: {link}" for page in pages() for link in broken(page)]
    print("\n".join([*wrong, f"{len(pages())} pages, {len(wrong)} links to mend"]))
    sys.exit(1 if wrong else 0)


if __name__ == "__main__":
    main()
