#!/usr/bin/env python3
"""Tests the parts of tools/edits.py that need no prover: python3 tools/test_edits.py"""
import contextlib
import io
import pathlib
import tempfile
import unittest

import edits

GOOD = "file: src/lib.rt\nold: a < b\nnew: a <= b\n"
# What the kit's report says of an edit, and what the tool makes of it.
REPORTS = {
    "refused, as it must be: src/lib.rt:1:1: error: no proof": ("refused by a goal", "src/lib.rt:1:1: error: no proof"),
    "refused, as it must be": ("refused by a goal", ""),
    "refused, as it must be: rattle does not read A": ("refused by names alone", "rattle does not read A"),
    "refused, as it must be (only because a proof file names what the edit took away: keep them): proofs/A.antt:1:1": (
        "refused by names alone",
        "proofs/A.antt:1:1",
    ),
    "NOT REFUSED: the crate is still proved": ("NOT REFUSED", "the crate is still proved"),
    "BAD EDIT: there is no file src/a.rt": ("BAD EDIT", "there is no file src/a.rt"),
}


SOURCE = """const MOST: usize = 3;

pub fn first(a: usize) -> bool
    ensures { is_less a }
{
    if a < MOST { true } else { false }
}

impl<A: Allocator> Xdr for Memo<A> {
    fn read(&self) -> bool {
        self.a < self.b
    }
}

impl Memo {
    pub(crate) fn last(&self) -> bool {
        self.a > self.b
    }
}

pub const LAST: usize = 4;
"""
# What the prover says of functions, one of which is not proved only because it calls another.
SAID = """./proofs/texts/third/Answers.antt:7:32: error: `returns`: module `low` has no `a` that can be named from here
./proofs/texts/fourth/Answers.antt:7:32: error: `returns`: computed as far as they go, the two types are different
fn low::first: no proof: expected answers in a file; `search` did not prove `returns`, `loop`; it calls `low::fifth`
fn low::second: no proof: it calls `low::first`, which is not proved
fn low::texts::third: not proved
fn low::texts::fourth: not proved; it stands on `Rattle.low.proofs.texts.fourth.Answers.returns`, which antt refuses
fn low::fifth: proved
fn low::texts::Memo::last: no proof: `search` did not prove `returns`
only=6 proved=1
"""


class Edits(unittest.TestCase):
    def setUp(self):
        room = tempfile.TemporaryDirectory(prefix="test-edits-")
        self.addCleanup(room.cleanup)
        self.crate = pathlib.Path(room.name) / "low"
        for part in ("src", "edits", "must-fail"):
            (self.crate / part).mkdir(parents=True)
        (self.crate / "src" / "lib.rt").write_text("if a < b { c } else { d }\nif c { a }\n")

    def check(self, text, name="edits/x.edit"):
        """Returns the faults that are found in an edit."""
        (self.crate / name).write_text(text)
        with contextlib.redirect_stdout(io.StringIO()) as said:
            status = edits.check([self.crate])
        faults = said.getvalue().strip().split("\n")[:-1]
        self.assertEqual(status, 1 if faults else 0)
        return faults

    def test_a_good_edit(self):
        self.assertEqual(self.check(GOOD), [])
        self.assertEqual(self.check(GOOD, "must-fail/x.edit"), [])
        self.assertEqual(edits.replaced(self.crate, GOOD)["src/lib.rt"], "if a <= b { c } else { d }\nif c { a }\n")

    def test_pairs_are_made_one_after_the_other(self):
        self.assertEqual(self.check(GOOD + "old: if a <= b\nnew: if b\n"), [])
        self.assertEqual(len(self.check("file: src/lib.rt\nold: { c }\nnew:\nold: { c }\nnew: x\n")), 1)

    def test_an_old_text_stands_once(self):
        self.assertIn("stands 2 times in src/lib.rt", self.check("file: src/lib.rt\nold: if\nnew: while\n")[0])
        self.assertIn("stands 0 times in src/lib.rt", self.check("file: src/lib.rt\nold: e f\nnew: g\n", "must-fail/x.edit")[1])

    def test_other_faults(self):
        for text in ("", "file: src/lib.rt\n", "old: a\nnew: b\n", GOOD + "old: c\n", GOOD + "more\n", GOOD.replace("<=", "<")):
            self.assertEqual(len(self.check(text)), 1, text)
        for path in ("src/other.rt", "Cargo.toml", "src/../src/lib.rt"):
            self.assertEqual(len(self.check(GOOD.replace("src/lib.rt", path))), 1, path)
        self.check(GOOD)
        self.assertEqual(len(self.check(GOOD, "edits/x.txt")), 1)

    def test_functions_of_edits(self):
        (self.crate / "src" / "texts.rt").write_text(SOURCE)
        found = {
            "if a < MOST": ["texts::first"],
            "ensures { is_less a }": ["texts::first"],
            "self.a < self.b": ["MemoXdr::read"],
            "self.a > self.b": ["Memo::last"],
            "const MOST: usize = 3": [],
            "const LAST: usize = 4": [],
        }
        for number, (old, functions) in enumerate(found.items()):
            text = f"file: src/texts.rt\nold: {old}\nnew: {old} /* {number} */\n"
            self.assertEqual(edits.functions_of(self.crate, text), functions, old)
            self.check(text, f"edits/{number}.edit")
        rounds, others = edits.rounds_of(self.crate, edits.edits_of(self.crate, "edits"))
        self.assertEqual([[it.stem for it in each] for each, _ in rounds], [["0", "2", "3"], ["1"]])
        self.assertEqual([it.stem for it in others], ["4", "5"])
        self.assertIn("self.a > self.b /* 3 */", rounds[0][1]["src/texts.rt"])
        self.assertIn("if a < MOST /* 0 */", rounds[0][1]["src/texts.rt"])

    def test_refusals_of_a_round(self):
        self.assertEqual(edits.refusal(SAID, "low", "first"), ("refused by a goal", "`returns`, `loop` of first"))
        self.assertEqual(edits.refusal(SAID, "low", "texts::fourth")[0], "refused by a goal")
        self.assertEqual(edits.refusal(SAID, "low", "Memo::last"), ("refused by a goal", "`returns` of Memo::last"))
        for name in ("second", "texts::third", "fifth", "sixth"):
            self.assertIsNone(edits.refusal(SAID, "low", name), name)

    def test_outcomes(self):
        for report, found in REPORTS.items():
            self.assertEqual(edits.outcome(f"must-fail low/x.edit: {report}"), found)
        self.assertEqual(edits.outcome("killed"), ("BAD EDIT", "killed"))

    def test_tally(self):
        self.assertEqual(edits.tally(["refused by a goal"] * 2), ("2 edits: 2 refused by a goal", 0))
        self.assertEqual(edits.tally(["refused by a goal", "refused by names alone"])[1], 0)
        line = "3 edits: 1 refused by a goal, 1 NOT REFUSED, 1 BAD EDIT"
        self.assertEqual(edits.tally(["NOT REFUSED", "refused by a goal", "BAD EDIT"]), (line, 1))
        self.assertEqual(edits.tally([edits.UNPROVED])[1], 1)


if __name__ == "__main__":
    unittest.main()
