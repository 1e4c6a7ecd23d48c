#!/usr/bin/env python3
"""Vets modules that import functions of the host, and prints the processor's instructions that the imports take.

The instructions are those of the whole command, less those of the same module without imports. They have the reading of the
imports, too. The first two imports read and write the data of a contract.

usage: bench/imports.py PROGRAM (the built program of crates/soroban_cmd; it needs valgrind)
"""

import os
import pathlib
import sys
import tempfile

from measure import instructions, program_argument
from modules import I64, leb, sized, vec

sys.path.insert(0, str(pathlib.Path(__file__).resolve().parent.parent / "tools"))
from import_cases import functions

COUNTS = (1, 2, 94)


FIRST = ("get_contract_data", "put_contract_data")


def module(count):
    """A module that imports so many functions of the host, and has one function of its own."""
    listed = sorted(((letter, name, len(arguments)) for letter, name, arguments, _ in functions()), key=lambda row: row[1] not in FIRST)
    imports = [sized(letter.encode()) + sized(name.encode()) + b"\x00" + leb(arity) for letter, name, arity in listed[:count]]
    types = [b"\x60" + vec([I64] * arity) + vec([I64]) for arity in range(5)]
    sections = [(1, vec(types)), (2, vec(imports)), (3, vec([leb(0)])), (10, vec([sized(b"\x00\x42\x02\x0b")]))]
    return b"\x00asm\x01\x00\x00\x00" + b"".join(leb(number) + sized(data) for number, data in sections)


def main():
    program = program_argument(__doc__)
    with tempfile.TemporaryDirectory() as folder:
        path = os.path.join(folder, "module")

        def vetted(count):
            with open(path, "wb") as file:
                file.write(module(count))
            return instructions([program, "vet", "--module", path])

        none = vetted(0)
        print("| imports | instructions | an import |\n|--:|--:|--:|")
        for count in COUNTS:
            more = vetted(count) - none
            print(f"| {count} | {more:,} | {more // count:,} |", flush=True)


if __name__ == "__main__":
    main()
