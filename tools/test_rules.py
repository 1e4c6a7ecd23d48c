#!/usr/bin/env python3
"""Tests of tools/rules.py: what it says of rows that are right and of rows that are wrong."""
import unittest

import rules

SEEN = "[`seen`](../crates/ledger_spec/specs/Seen.antt)"
GET = "[`Storage::get`](../crates/contract_storage/src/calls.rt)"
HEAD = "| rule | definition | code |\n|---|---|---|\n"


class Rows(unittest.TestCase):
    @classmethod
    def setUpClass(cls):
        cls.pages, cls.functions = rules.read_pages(), rules.contracts()
        cls.citing = rules.Citing(cls.pages)

    def judged(self, definitions, code):
        (row,) = rules.rows(f"{HEAD}| A rule. | {definitions} | {code} |\n")
        return rules.judged_row(row, self.pages, self.citing, self.functions)

    def test_right_row(self):
        wrong, ways = self.judged(SEEN, GET + "/answer")
        self.assertEqual(wrong, [])
        self.assertEqual(ways, ["Storage::get: contract_storage/Acts.get_act > ledger_spec/Seen.seen"])

    def test_constructor_counts_as_its_definition(self):
        self.assertEqual(self.judged("[`archived`](../crates/ledger_spec/specs/Seen.antt)", GET)[0], [])

    def test_no_such_definition(self):
        self.assertIn("has no definition seem", self.judged(SEEN.replace("seen", "seem"), GET)[0][0])

    def test_no_such_page(self):
        self.assertIn("ledger_spec/specs/Scene has no definition", self.judged(SEEN.replace("Seen.", "Scene."), GET)[0][0])

    def test_no_such_function(self):
        self.assertIn("has no function Storage::got", self.judged(SEEN, GET.replace("get", "got"))[0][0])

    def test_no_such_clause(self):
        self.assertIn("has no clause answers", self.judged(SEEN, GET + "/answers")[0][0])

    def test_contract_does_not_reach(self):
        cost = "[`cost_of`](../crates/budget_meter/specs/Costs.antt)"
        self.assertIn("reaches no definition", self.judged(cost, GET)[0][0])
        self.assertIn("no contract of the row reaches cost_of", self.judged(f"{SEEN}, {cost}", GET)[0][0])

    def test_a_law_ends_at_its_empty_body(self):
        law = "[`seen_by_life`](../crates/ledger_spec/src/laws.rt)"
        self.assertEqual(self.judged(SEEN, law + "/lives/is_archived")[0], [])
        self.assertIn("no clause stays", self.judged(SEEN, law + "/stays")[0][0])

    def test_functions_of_the_crate_alone(self):
        allows = "[`allows`](../crates/contract_storage/specs/Footprint.antt)"
        self.assertEqual(self.judged(allows, "[`Entries::allows`](../crates/contract_storage/src/entries.rt)")[0], [])

    def test_row_without_code(self):
        self.assertIn("names no definition, or no function", self.judged(SEEN, "`Storage::get`")[0][0])

    def test_conditions_do_not_count(self):
        lines = ["fn f(x: u8)", "    requires a { one", "        x }", "    ensures b { two", "        x }", "    requires { three }", "{"]
        self.assertEqual(rules.guaranteed(lines), [lines[0], lines[3], lines[4], lines[6]])

    def test_names_in_full(self):
        text = "`ledger_spec/specs/Seen`: `seen`, `sees`, and `ledger_spec/specs/Scene`: `seen`, and `ledger_spec/specs`."
        said = ["ledger_spec/specs/Seen has no definition sees", "there is no ledger_spec/specs/Scene"]
        self.assertEqual(list(rules.named_nowhere(text, self.pages)), said)

    def test_other_tables_are_no_rules(self):
        self.assertEqual(list(rules.rows("| rule | definition |\n|---|---|\n| A rule. | x |\n")), [])


if __name__ == "__main__":
    unittest.main()
