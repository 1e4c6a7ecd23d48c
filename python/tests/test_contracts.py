"""The contracts of examples/, over the built program. Each one has its own tests beside it."""
from __future__ import annotations

import importlib.util
import os
import re
import subprocess
import tempfile
import textwrap
import unittest

from soroban_files.lint import lint
from soroban_files.values import u32
from soroban_files.world import WorldTest, module_bytes
from tests.tables import REPOSITORY

EXAMPLES = os.path.join(REPOSITORY, "examples")
CONTRACTS = ("account", "escrow", "exchange", "treasury")


class ModuleTest(unittest.TestCase):
    def test_lint(self) -> None:
        """Nothing is to be said of the stored modules: the stack stands below the data, and one page of memory is enough."""
        for name in (*CONTRACTS, "token"):
            self.assertEqual(lint(module_bytes(os.path.join(EXAMPLES, name, f"{name}.hex"))), [], name)


DEEP = """\
#include "soroban_values.h"

static uint32_t good[4] = {1, 2, 3, 4};

static uint32_t deep(uint32_t levels) {
    volatile uint32_t frame[64];
    for (int i = 0; i < 64; i++) {
        frame[i] = levels;
    }
    return levels == 0 ? frame[0] : deep(levels - 1) + frame[levels % 64];
}

EXPORT("sum") U32Val sum(U32Val levels) {
    volatile uint32_t *read = good;
    deep(u32_of(levels));
    return u32_val(read[0] + read[1] + read[2] + read[3]);
}
"""


class BuiltTest(WorldTest):
    """Tests of modules that are built. They are skipped without a compiler."""

    def build(self, top: str, name: str, text: str) -> bytes:
        """Returns the module of a source in a folder of its own below `top`, built as the page for authors says."""
        folder = os.path.join(top, name.partition(".")[0])
        os.makedirs(folder, exist_ok=True)
        with open(os.path.join(folder, name), "w", encoding="utf-8") as file:
            file.write(text)
        if not os.path.exists(os.path.join(top, "examples")):
            os.symlink(EXAMPLES, os.path.join(top, "examples"))
        words = ["sh", "examples/build.sh", "--store", os.path.basename(folder)]
        built = subprocess.run(words, cwd=top, stdout=subprocess.PIPE, stderr=subprocess.PIPE, check=False)
        faults = built.stderr.decode()
        if re.search("this needs the command|has no library", faults):
            self.skipTest(faults.strip())
        self.assertEqual((built.returncode, faults), (0, ""))
        return module_bytes(os.path.join(folder, "out", f"{os.path.basename(folder)}.wasm"))


class StackTest(BuiltTest):
    def test_overflow(self) -> None:
        """A call that needs more stack traps. Without --stack-first it changes static data unseen, and lint warns."""
        with tempfile.TemporaryDirectory() as top:
            built = self.build(top, "deep.c", DEEP)
            bad = os.path.join(top, "bad.wasm")
            words = [
                os.environ.get("CLANG", "clang"),
                "--target=wasm32",
                "-mcpu=mvp",
                "-O2",
                "-ffreestanding",
                "-nostdlib",
            ]
            words += ["-I", os.path.join(EXAMPLES, "include"), "-Wl,--no-entry,--strip-all,-z,stack-size=5120"]
            subprocess.run([*words, "-o", bad, os.path.join(top, "deep", "deep.c")], check=True)
            unsafe = module_bytes(bad)
        deep = self.world.deploy(built)
        self.assertEqual(deep.read("sum", u32(10)), 10)
        deep.attempt("sum", u32(100)).expect_failure("trapped")
        self.assertEqual(lint(built), [])
        deep = self.world.deploy(unsafe)
        self.assertEqual(deep.read("sum", u32(10)), 10)
        self.assertNotEqual(deep.read("sum", u32(20)), 10)
        self.assertIn("above static data", " ".join(map(str, lint(unsafe))))


class PageTest(BuiltTest):
    """A new author follows docs/CONTRACTS.md: the counter is built and tested with the texts of that page."""

    def counter(self, language: str, ending: str) -> None:
        with tempfile.TemporaryDirectory() as top:
            module = self.build(top, f"counter.{ending}", block(language))
            test = os.path.join(top, "counter", "test_counter.py")
            with open(test, "w", encoding="utf-8") as file:
                file.write(block("python"))
            self.assertTrue(self.world.program.vet(module).startswith("valid"))
            self.assertEqual(lint(module), [])
            found = unittest.TestResult()
            tests_in(unittest.TestLoader(), test).run(found)
            self.assertEqual((found.testsRun, found.errors + found.failures + found.skipped), (1, []))

    def test_c(self) -> None:
        self.counter("c", "c")

    def test_rust(self) -> None:
        self.counter("rust", "rs")


def block(language: str) -> str:
    """Returns the first block of a language on the page for authors, which stands in a list."""
    with open(os.path.join(REPOSITORY, "docs", "CONTRACTS.md"), encoding="utf-8") as file:
        text = file.read().partition(f"   ```{language}\n")[2].partition("   ```\n")[0]
    return textwrap.dedent(text)


def tests_in(loader: unittest.TestLoader, path: str) -> unittest.TestSuite:
    """Returns the tests in a file."""
    spec = importlib.util.spec_from_file_location(os.path.basename(path)[: -len(".py")], path)
    assert spec and spec.loader
    module = importlib.util.module_from_spec(spec)
    spec.loader.exec_module(module)
    return loader.loadTestsFromModule(module)


def load_tests(loader: unittest.TestLoader, tests: unittest.TestSuite, _: object) -> unittest.TestSuite:
    tests.addTests(tests_in(loader, os.path.join(EXAMPLES, name, f"test_{name}.py")) for name in CONTRACTS)
    return tests
