"""What is said of modules: it agrees with the tables on what is a module and what links, and names what is meant."""
from __future__ import annotations

import os
import re
import unittest
from typing import List

from soroban_files import lint, wasm
from soroban_files.host_functions import HOST_FUNCTIONS
from soroban_files.world import module_bytes
from tests.tables import REPOSITORY, tables

TOKEN = os.path.join(REPOSITORY, "examples", "token", "token.hex")
KINDS = ("check", "flaw", "link", "vet")


def said(data: bytes) -> List[str]:
    return [str(finding) for finding in lint.lint(data)]


def module(*sections: str) -> bytes:
    """Returns a module of sections in hex digits."""
    return wasm.MAGIC + bytes.fromhex("".join(sections))


def section(number: int, content: str) -> str:
    return f"{number:02x}{len(bytes.fromhex(content)):02x}{content}"


def name(text: str) -> str:
    """Returns a name in hex digits."""
    return f"{len(text):02x}{text.encode().hex()}"


class TablesTest(unittest.TestCase):
    def test_modules(self) -> None:
        """What the tables call `not a module` is refused here, and nothing else is."""
        count = {True: 0, False: 0}
        for table in tables("conformance"):
            for line in table.lines():
                kind, data, *_ = line.text.split(" ") + [""]
                if kind not in KINDS:
                    continue
                with self.subTest(line.place):
                    outcome = " ".join(line.outcome())
                    findings = lint.lint(table.spelled(data))
                    is_bad = any(finding.text.startswith("not a module") for finding in findings)
                    self.assertEqual(is_bad, outcome == "not a module")
                    count[is_bad] += 1
                    unlinked = re.fullmatch(r"unlinked import (\d+)", outcome)
                    first = [finding.text for finding in findings if finding.text.startswith("unlinked")][:1]
                    if unlinked or outcome == "linked":
                        self.assertEqual(
                            [text.split(",")[0] for text in first],
                            [f"unlinked: import {unlinked.group(1)}"] if unlinked else [],
                        )
        self.assertGreater(count[True], 200)
        self.assertGreater(count[False], 300)

    def test_host_functions(self) -> None:
        """The table of host functions is that of the header for contracts in C."""
        with open(os.path.join(REPOSITORY, "examples", "include", "soroban_host.h"), encoding="utf-8") as file:
            rows = re.findall(r'HOST\("(\w)", "(\w+)"\)[^(]*\(([^)]*)\);', file.read())
        counted = {(letter, name): 0 if args == "void" else args.count(",") + 1 for letter, name, args in rows}
        self.assertEqual(HOST_FUNCTIONS, counted)


class FindingsTest(unittest.TestCase):
    def test_token(self) -> None:
        errors = [text for text in said(module_bytes(TOKEN)) if text.startswith("error")]
        self.assertEqual(errors, [])

    def imported(self, letter: str, word: str) -> List[str]:
        return said(module(section(1, "0160017e017e"), section(2, f"01{name(letter)}{name(word)}0000")))

    def test_imports(self) -> None:
        for letter, word, hint in (
            ("l", "get_contract_dat", "did you mean l.get_contract_data?"),
            ("x", "require_auth", "require_auth is in the module a"),
            ("env", "memcpy", "of the C library: define it in the contract"),
            ("env", "__multi3", "for numbers of 128 bits"),
            ("l", "1", "modules for the public network"),
            ("env", "qqqqqqqq", "no name of a host function is like it"),
            ("l", "get_contract_data", "the host's is (i64, i64) -> (i64)"),
        ):
            self.assertIn(hint, self.imported(letter, word)[0])
            self.assertTrue(self.imported(letter, word)[0].startswith(f"error: unlinked: import 0, {letter}.{word},"))

    def test_instruction(self) -> None:
        # A function `copy`, exported, with memory.copy behind three constants.
        code = section(10, "01" + "0e" + "00" + "410041004100" + "fc0a0000" + "42000b")
        exported = section(7, "01" + name("copy") + "0000")
        data = module(section(1, "016000017e"), section(3, "0100"), section(5, "010001"), exported, code)
        at = data.index(bytes.fromhex("fc0a"))
        self.assertEqual(len(said(data)), 1)
        self.assertIn(
            f"not a module: at {at} (0x{at:x}) of function 0 (copy): the instruction fc 10, of bulk memory",
            said(data)[0],
        )
        self.assertIn("-mcpu=mvp", said(data)[0])

    def test_parts(self) -> None:
        types = section(1, "01600000")
        self.assertIn("the section type stands behind the section type", said(module(types, types))[0])
        self.assertIn("a number of more than 32 bits", said(module(section(1, "8080808010")))[0])
        self.assertIn("a start function: contracts have none", said(module(section(8, "00")))[0])
        memory = section(2, "01" + name("env") + name("memory") + "020001")
        self.assertIn("the import env.memory of a memory; only functions are accepted", said(module(memory))[0])
        self.assertIn("the type f64: only i32 and i64 are accepted", said(module(section(1, "0160017c00")))[0])

    def test_exports(self) -> None:
        types = section(1, "0260017f017e60027e7e017e")
        functions, bodies = section(3, "020001"), section(10, "02" + "040042000b" * 2)
        names = (("a", 0), ("b oops", 1), ("__old", 1), ("__check_auth", 1))
        exported = section(7, "04" + "".join(f"{name(text)}00{index:02x}" for text, index in names))
        found = said(module(types, functions, exported, bodies))
        self.assertIn(
            "warning: the export a cannot be called: it is (i32) -> (i64), and parameters and the one result have to be i64",
            found,
        )
        self.assertTrue(any("the export b oops cannot be called: no symbol has this name" in text for text in found))
        self.assertTrue(any("the export __old cannot be called: only the host calls" in text for text in found))
        self.assertTrue(
            any("the export __check_auth cannot be called: the host gives it 3 arguments" in text for text in found)
        )
        self.assertIn("warning: no export can be called", found)

    def test_memory(self) -> None:
        memory, stack = section(5, "010002"), section(6, "017f0141" + "80200b")  # two pages, a stack from 4096 down
        data = section(11, "01" + "00" + "4180080b" + "0161")  # a byte at 1024
        found = said(module(memory, stack, data))
        self.assertTrue(any("begins with 2 pages: each call is charged 131,072 bytes" in text for text in found))
        self.assertTrue(any("the stack begins at 4096, above static data at 1024" in text for text in found))
        above = section(11, "01" + "00" + "4180200b" + "0161")  # a byte at 4096, as --stack-first puts it
        self.assertFalse(any("the stack begins" in text for text in said(module(memory, stack, above))))

    def test_sections(self) -> None:
        custom = section(0, name(".debug_info") + "0102")
        self.assertIn(
            "note: the section .debug_info has 2 bytes: code is charged by its length; link with --strip-all",
            said(module(custom)),
        )


if __name__ == "__main__":
    unittest.main()
