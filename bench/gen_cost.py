#!/usr/bin/env python3
"""Prints the processor's instructions of one transaction that `gen` makes: those of applying a set of 2,000 less those of applying
one of 1,000, divided by 1,000. Codes are shared, and one worker applies the sets.

usage: bench/gen_cost.py PROGRAM (the built program of crates/soroban_cmd; it needs valgrind)
"""

import tempfile

from measure import instructions, program_argument
from shares import made

FEW, MANY = 1_000, 2_000


def main():
    program = program_argument(__doc__)
    with tempfile.TemporaryDirectory() as folder:
        few, many = (instructions(made(program, folder, count)) for count in (FEW, MANY))
    print(f"{(many - few) / (MANY - FEW):,.0f} instructions of the processor for each transaction")


if __name__ == "__main__":
    main()
