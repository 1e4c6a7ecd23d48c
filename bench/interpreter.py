#!/usr/bin/env python3
"""Counts the processor's instructions for one instruction of WebAssembly, and times whole runs beside wabt's wasm-interp.

Each module of bench/modules is applied as a contract whose function `run` is called. The count is the difference of two runs
whose declared instructions end them after FIRST and LAST instructions of WebAssembly, by callgrind, which other work does not
change. The seconds are of processor time, of a run to the end. Behind them stand the processor's instructions of a call of a
function that does nothing, for several numbers of locals.

usage: bench/interpreter.py PROGRAM (the built program of crates/soroban_cmd; it needs valgrind, and wasm-interp of wabt if that
is there)
"""

import hashlib
import os
import shutil
import subprocess
import tempfile

from host_calls import CONTRACT, MEMORY_LIMIT, MOST, record
from ledgers import header, words
from measure import apply_command, instructions, processor_seconds, program_argument
from modules import leb, sized, vec

LOCALS = [10, 1_000, 4_090]
CALLS = 5_000
MODULES = ["xxh", "sha", "sort", "vm"]
FIRST, LAST = 4_000_000, 6_000_000


def code(name):
    """The module of this name."""
    path = os.path.join(os.path.dirname(os.path.abspath(__file__)), "modules", name + ".hex")
    with open(path, encoding="ascii") as file:
        return bytes.fromhex(file.read())


def contents(module, most):
    """The files of a call of `run` that declares so many instructions."""
    code_key = words(7) + hashlib.sha256(module).digest()
    instance_key = words(6) + CONTRACT + words(20, 1)
    executable = words(19, 0) + code_key[4:] + words(0)
    records = [
        record(instance_key, words(6, 0) + instance_key[4:] + executable),
        record(code_key, words(7, 0) + code_key[4:] + words(len(module)) + module + bytes(-len(module) % 4)),
    ]
    invoke = words(24, 0) + CONTRACT + words(3) + b"run\0" + words(0, 0)
    footprint = words(1) + code_key + words(1) + instance_key
    declared = words(1, 0) + footprint + words(most, MOST, MOST, 0, 0)
    transaction = words(0) + bytes(32) + words(100, 0, 1, 0, 0, 1, 0) + invoke + declared
    applied = words(1) + bytes(32) + words(1, 1, 0, 1, 1, 1, 2) + transaction + words(0)
    return {"set": applied, "ledger": header(MEMORY_LIMIT) + words(2) + b"".join(records), "verdicts": words(0)}


def calling(count):
    """A module whose `run` calls a function with so many locals again and again: two instructions for each call."""
    types = vec([b"\x60\x00" + vec([b"\x7e"]), b"\x60\x00\x00"])
    run = sized(b"\x00\x03\x40\x10\x01\x0c\x00\x0b\x42\x00\x0b")
    called = sized(b"\x01" + leb(count) + b"\x7e\x0b")
    sections = [(1, types), (3, vec([leb(0), leb(1)])), (7, vec([sized(b"run") + b"\x00\x00"])), (10, vec([run, called]))]
    return b"\x00asm\x01\x00\x00\x00" + b"".join(leb(number) + sized(data) for number, data in sections)


def between(program, folder, module, first, last):
    """The processor's instructions of a run of so many instructions of WebAssembly more than another."""
    less, more = (instructions(apply_command(program, folder, contents(module, most))) for most in (first, last))
    return more - less


def seconds(command):
    """Processor seconds of a command."""
    start = processor_seconds()
    subprocess.run(command, stdout=subprocess.DEVNULL, check=True)
    return processor_seconds() - start


def main():
    program = program_argument(__doc__)
    print("| module | processor instructions for one | seconds | wasm-interp, seconds |")
    print("|---|--:|--:|--:|")
    counts = []
    with tempfile.TemporaryDirectory() as folder:
        for name in MODULES:
            module = code(name)
            counts.append(between(program, folder, module, FIRST, LAST) / (LAST - FIRST))
            here = seconds(apply_command(program, folder, contents(module, MOST)))
            there = "-"
            if shutil.which("wasm-interp"):
                path = os.path.join(folder, "module.wasm")
                with open(path, "wb") as file:
                    file.write(module)
                there = f"{seconds(['wasm-interp', path, '--run-all-exports']):.2f}"
            print(f"| {name} | {counts[-1]:.1f} | {here:.2f} | {there} |", flush=True)
        print(f"| mean | {sum(counts) / len(counts):.1f} | | |")
        for count in LOCALS:
            each = between(program, folder, calling(count), 2 * CALLS, 4 * CALLS) / CALLS
            print(f"a call of a function with {count:,} locals: {each:,.0f} processor instructions", flush=True)


if __name__ == "__main__":
    main()
