#!/usr/bin/env python3
"""Makes 25,000, 50,000 and 100,000 new entries in a ledger of 200,000 with conformance, and prints µs an entry.

usage: bench/maps.py CONFORMANCE (the built program of crates/conformance; it needs GNU time at /usr/bin/time)
"""

import os
import tempfile

from ledgers import ledger
from measure import measure, program_argument

ENTRIES = 200_000
TURNS = 5


def main():
    program = program_argument(__doc__)
    with tempfile.TemporaryDirectory() as folder:
        path = os.path.join(folder, "ledger")
        with open(path, "wb") as file:
            file.write(ledger(ENTRIES))
        read = min(measure([program, "bench", "entries", "0", path])[0] for _ in range(TURNS))
        print(f"{ENTRIES} entries read: {read:.2f} s")
        print("| new entries | µs an entry |")
        print("|--:|--:|")
        for count in (25_000, 50_000, 100_000):
            seconds = min(measure([program, "bench", "entries", str(count), path])[0] for _ in range(TURNS))
            print(f"| {count:,} | {(seconds - read) / count * 1e6:.2f} |")


if __name__ == "__main__":
    main()
