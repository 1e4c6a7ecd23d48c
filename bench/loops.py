#!/usr/bin/env python3
"""Runs integer loops through conformance and through wabt's wasm-interp, and prints instructions a second of processor time of both.

usage: bench/loops.py CONFORMANCE (the built program of crates/conformance; it needs wat2wasm and wasm-interp of wabt)
"""

import os
import re
import subprocess
import tempfile

from measure import processor_seconds, program_argument

LOOPS = """(module (memory 16)
(func (export "count") (result i64) (local i64)
  (loop $l (br_if $l (i64.ne (local.tee 0 (i64.add (local.get 0) (i64.const 1))) (i64.const 20000000)))) (local.get 0))
(func (export "fibonacci") (result i64) (local $a i64) (local $b i64) (local $n i64) (local.set $b (i64.const 1))
  (loop $l (i64.add (local.get $a) (local.get $b)) (local.set $a (local.get $b)) (local.set $b)
    (br_if $l (i64.lt_u (local.tee $n (i64.add (local.get $n) (i64.const 1))) (i64.const 10000000)))) (local.get $a))
(func (export "sieve") (result i64) (local $i i32) (local $j i32) (local $found i64) (local $round i32)
  (loop $again (local.set $i (i32.const 2)) (loop $next
    (if (i32.eqz (i32.load8_u (local.get $i))) (then (local.set $found (i64.add (local.get $found) (i64.const 1)))
      (local.set $j (i32.add (local.get $i) (local.get $i)))
      (block $done (loop $mark (br_if $done (i32.ge_u (local.get $j) (i32.const 1000000))) (i32.store8 (local.get $j) (i32.const 1))
        (local.set $j (i32.add (local.get $j) (local.get $i))) (br $mark)))))
    (br_if $next (i32.lt_u (local.tee $i (i32.add (local.get $i) (i32.const 1))) (i32.const 1000000))))
    (br_if $again (i32.lt_u (local.tee $round (i32.add (local.get $round) (i32.const 1))) (i32.const 3)))) (local.get $found))
(func $more (param i64) (result i64) (i64.add (local.get 0) (i64.const 3)))
(func (export "calls") (result i64) (local $n i64) (local $sum i64)
  (loop $l (local.set $sum (call $more (local.get $sum)))
    (br_if $l (i64.lt_u (local.tee $n (i64.add (local.get $n) (i64.const 1))) (i64.const 8000000)))) (local.get $sum))
)"""
NAMES = ["count", "fibonacci", "sieve", "calls"]


def timed(*command):
    """Seconds of processor time of a command, and what it said."""
    start = processor_seconds()
    said = subprocess.run(command, stdout=subprocess.PIPE, check=True).stdout.decode()
    return processor_seconds() - start, said


def alone(name):
    """The module in which this function is the only export."""
    others = "|".join(n for n in NAMES if n != name)
    return re.sub(rf' \(export "(?:{others})"\)', "", LOOPS)


def main():
    program = program_argument(__doc__)
    print(f"{'loop':10} {'instructions':>13} {'here':>14} {'wasm-interp':>14}  a second")
    with tempfile.TemporaryDirectory() as folder:
        for name in NAMES:
            text, module = os.path.join(folder, name + ".wat"), os.path.join(folder, name + ".wasm")
            with open(text, "w") as file:
                file.write(alone(name))
            subprocess.run(["wat2wasm", text, "-o", module], check=True)
            here, said = timed(program, "bench", "export", name, module)
            words = re.fullmatch(r"done ([0-9a-f]+), instructions (\d+) memory \d+\n", said)
            found, count = int(words[1], 16), int(words[2])
            there, other = timed("wasm-interp", module, "--run-all-exports")
            assert other.strip().endswith(f"i64:{found}"), (name, said, other)
            print(f"{name:10} {count:13,} {count / here:14,.0f} {count / there:14,.0f}")


if __name__ == "__main__":
    main()
