#!/usr/bin/env python3
"""Tests tools/hygiene.py on planted faults: python3 tools/test_hygiene.py"""
import contextlib
import io
import pathlib
import tempfile
import unittest

import hygiene

GOOD = """#[tactic(auto, using(""" + "a" * hygiene.WIDTH + """))]
/// Returns what is less.
pub fn first(a: usize) -> bool
    ensures { is_less a }
{
    a < 3
}

/// What can be read.
pub trait Reads {
    /// Reads the next byte.
    fn read(&mut self) -> u8;
}
"""
DEFINITION = "-- what is less\nabbrev pub is_less : ℕ → Bool\nis_less n = nat_lt n 3\n"


def outcome(source=GOOD, definition=DEFINITION, exempt="", words=()):
    """Returns the status, what is printed, and the list that is left, of the tool over one crate."""
    with tempfile.TemporaryDirectory() as folder:
        top = pathlib.Path(folder)
        for name, text in {"crates/a/src/lib.rt": source, "crates/a/specs/Less.antt": definition, hygiene.EXEMPT: exempt}.items():
            (top / name).parent.mkdir(parents=True, exist_ok=True)
            (top / name).write_text(text, encoding="utf-8")
        printed = io.StringIO()
        with contextlib.redirect_stdout(printed):
            status = hygiene.main(list(words), top)
        return status, printed.getvalue(), (top / hygiene.EXEMPT).read_text(encoding="utf-8")


class Rules(unittest.TestCase):
    def refuses(self, words, **files):
        status, printed, _ = outcome(**files)
        self.assertEqual(status, 1, printed)
        self.assertIn(words, printed)

    def test_what_is_good_passes(self):
        self.assertEqual(outcome()[0], 0, outcome()[1])

    def test_a_wide_line(self):
        planted = "// " + "ℕ" * (hygiene.WIDTH - 2)
        self.refuses("crates/a/src/lib.rt:14: line: 131 columns", source=GOOD + planted + "\n")
        self.refuses("crates/a/specs/Less.antt:4: line: 131 columns", definition=DEFINITION + "-- " + "ℕ" * (hygiene.WIDTH - 2))
        self.assertEqual(outcome(source=GOOD + planted[:-1] + "\n")[0], 0)

    def test_a_long_body(self):
        body = "    let b = a;\n"
        for head in ("fn long(a: u8) -> u8 {\n", "fn long(a: u8) -> u8\n    ensures { ⊥ }\n{\n", "fn long(\n    a: u8,\n) -> u8 {\n"):
            self.refuses(f"`long` has {hygiene.BODY} lines", source=GOOD + head + body * hygiene.BODY + "}\n")
            self.assertEqual(outcome(source=GOOD + head + body * (hygiene.BODY - 1) + "}\n")[0], 0)

    def test_no_docstring(self):
        self.refuses("`Pair` has no docstring", source=GOOD + "#[derive(Clone)]\npub struct Pair {\n    a: u8,\n}\n")
        self.refuses("`Pair` has no docstring", source=GOOD + "///\npub struct Pair {\n    a: u8,\n}\n")
        self.refuses("`Pair` has no docstring", source=GOOD + "// A pair.\npub struct Pair {\n    a: u8,\n}\n")
        self.refuses("`read` has no docstring", source=GOOD.replace("    /// Reads the next byte.\n", ""))
        self.assertEqual(outcome(source=GOOD + "/// A pair.\n#[derive(Clone)]\npub struct Pair {\n    a: u8,\n}\n")[0], 0)

    def test_the_list_only_shrinks(self):
        wide = GOOD + "// " + "a" * hygiene.WIDTH + "\n"
        self.assertEqual(outcome(source=wide, exempt="line a 1 why\n")[0], 0)
        self.refuses("columns", source=wide + wide, exempt="line a 1 why\n")
        self.refuses("run tools/hygiene.py --shrink", source=wide, exempt="line a 2 why\n")
        status, _, left = outcome(source=wide, exempt="# a list\nline a 2 why not\nbody a 1 why\n", words=["--shrink"])
        self.assertEqual((status, left), (0, "# a list\nline a 1 why not\n"))
        status, _, left = outcome(source=wide + wide, exempt="line a 1 why\n", words=["--shrink"])
        self.assertEqual((status, left), (1, "line a 1 why\n"))


if __name__ == "__main__":
    unittest.main()
