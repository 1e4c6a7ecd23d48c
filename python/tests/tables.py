"""Reads the tables of cases of the repository (docs/CASES.md)."""
from __future__ import annotations

import glob
import os
import re
import sys
from typing import Dict, Iterator, List, NamedTuple, Optional

REPOSITORY = os.path.dirname(os.path.dirname(os.path.dirname(os.path.abspath(__file__))))
sys.path.insert(0, os.path.join(REPOSITORY, "tools"))

import case_bytes  # noqa: E402


class Line(NamedTuple):
    """A line of a table with the indented lines below it."""

    place: str
    text: str
    below: List[str]

    def outcome(self) -> List[str]:
        """Returns the expected outcome, line by line."""
        _, arrow, behind = self.text.partition(" => ")
        return [behind.strip()] if arrow else self.below


class Table:
    """A table: its lines one after another, and the names that they have given so far."""

    def __init__(self, path: str) -> None:
        self.path = path
        self.names: Dict[str, bytes] = {}

    def lines(self) -> Iterator[Line]:
        """Yields each line that is no remark and gives no name."""
        with open(self.path, encoding="utf-8") as file:
            lines = file.read().split("\n")
        for line in grouped(lines, os.path.basename(self.path)):
            word, _, rest = line.text.partition(" ")
            if word == "let":
                name, _, spelled = rest.partition(" ")
                self.names[name] = self.spelled(spelled + "".join(line.below))
            elif word == "text":
                name, _, text = rest.partition(" ")
                self.names[name] = text.encode()
            else:
                yield line

    def spelled(self, text: str) -> bytes:
        """Returns the bytes that a text of the table spells."""
        return case_bytes.spelled(self.names, text)

    def words(self, text: str) -> List[str]:
        """Returns the words of a command."""
        whole = re.sub(r"{(\w+)}", lambda name: self.names[name.group(1)].decode(), text)
        return ["" if word == "''" else word for word in whole.split(" ")]

    def plain(self, text: str) -> str:
        """Returns an outcome with hex digits for its names."""
        return re.sub(r"{[^}]*}", lambda name: self.spelled(name.group()).hex(), text)


def grouped(lines: List[str], name: str) -> Iterator[Line]:
    """Yields each line with those below it, without remarks."""
    line: Optional[Line] = None
    for number, text in enumerate(lines, 1):
        if not text.startswith("text "):
            text = text.split(" # ", 1)[0].rstrip()
        if text.startswith("  "):
            if line:
                line.below.append(text.strip())
            continue
        if line:
            yield line
        line = None if not text or text.startswith("#") else Line(f"{name}:{number}", text, [])
    if line:
        yield line


def tables(crate: str) -> List[Table]:
    """Returns the tables of a crate."""
    return [Table(path) for path in sorted(glob.glob(os.path.join(REPOSITORY, "crates", crate, "data", "*.txt")))]
