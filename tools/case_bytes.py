#!/usr/bin/env python3
"""Prints the size, the SHA-256 and the hex digits of bytes that a table of cases spells.

python3 tools/case_bytes.py TABLE 'BYTES' [LINE]

BYTES are written as in the table (docs/CASES.md), and use the names that the table gives up to its line LINE, or up to its
end. Whoever adds a case uses this to write the hashes that it expects.
"""
import hashlib
import re
import sys


def without_remark(line):
    return line.split(" # ", 1)[0]


def named(names, inside):
    """Returns the bytes of what stands in braces."""
    if "@" in inside:
        name, edit = inside.split("@", 1)
        offset, digits = edit.split("=", 1)
        other, bytes_ = bytes.fromhex(digits), names[name]
        return bytes_[: int(offset)] + other + bytes_[int(offset) + len(other) :]
    for sign, cut in (("*", lambda it, n: it * n), ("<", lambda it, n: it[:n]), (">", lambda it, n: it[n:])):
        if sign in inside:
            name, number = inside.split(sign, 1)
            return cut(names[name], int(number))
    return names[inside]


def spelled(names, text):
    """Returns the bytes that a text spells."""
    out = b""
    for part in re.split(r"({[^}]*})", text):
        out += named(names, part[1:-1]) if part.startswith("{") else bytes.fromhex(part)
    return out


def names_of(lines):
    """Returns the bytes that the lines of a table give names to."""
    names, name = {}, None
    for line in lines:
        if line.startswith("  ") and name:
            names[name] += spelled(names, without_remark(line).strip())
            continue
        name = None
        word, _, rest = line.partition(" ")
        if word == "let":
            name, _, text = without_remark(rest).partition(" ")
            names[name] = spelled(names, text)
        elif word == "text":
            key, _, text = rest.partition(" ")
            names[key] = text.encode()
    return names


def main():
    table, text = sys.argv[1:3]
    with open(table, encoding="utf-8") as file:
        lines = file.read().split("\n")
    if len(sys.argv) > 3:
        lines = lines[: int(sys.argv[3])]
    found = spelled(names_of(lines), text)
    print(f"{len(found)} bytes of SHA-256 {hashlib.sha256(found).hexdigest()}")
    print(found.hex())


if __name__ == "__main__":
    main()
