"""What the tools make of files with every arm of every type, of texts that are markup, of empty files, and of broken ones."""
from __future__ import annotations

import itertools
import json
import os
import random
import unittest
from typing import List, Optional, Tuple

from soroban_files import decode, diff, encode, envelopes, hashes, ledgers, lint, schema, wasm, where
from soroban_files.explore import page_of
from soroban_files.explore.shown import value
from soroban_files.program import Program, is_there
from soroban_files.world import module_bytes, new_ledger
from soroban_files.xdr import Json, Refusal
from tests.samples import report, samples
from tests.tables import REPOSITORY
from tests.test_explore import Balance

NETWORK = "07" * 32
ELEMENTS = (
    "a b body br button code details div footer h1 h2 h3 h4 h5 head header html li main meta p script section small"
)
ELEMENTS += " span style summary table td th title tr ul wbr"


def ledger(entries: List[Json], seq: int = 100) -> Json:
    """Returns a ledger of entries, of which those with one key count once, with the right hashes of codes."""
    made = new_ledger(NETWORK, seq, 2**64 - 1)
    for entry in entries:
        code = entry["data"].get("contract_code")
        if code:
            code["hash"] = ledgers.sha256(bytes.fromhex(code["code"]))
    records = {ledgers.key_bytes(entry): ledgers.record_of(entry, 5000) for entry in entries}
    made["v2"]["records"] = [records[key] for key in sorted(records)]
    return made


class EveryArmTest(unittest.TestCase):
    def test_there_and_back(self) -> None:
        """Each arm of each type goes to bytes and back, and each offset of the bytes has an explanation."""
        for kind, of in schema.KINDS.items():
            found = samples(of) if kind != "report" else [report(samples(schema.RESULTS)[1], samples(schema.SUCCESS))]
            for value in found:
                data = schema.write(of, value)
                self.assertEqual(schema.read(of, data), json.loads(json.dumps(value)), kind)
            data = schema.write(of, found[-1])
            for at in range(0, len(data), max(4, len(data) // 50)):
                self.assertGreater(len(where.lines(kind, data, at)), 3)

    def test_entries(self) -> None:
        """A ledger with entries of all kinds of values, and what changed in it when each value became another one."""
        entries = samples(schema.ENTRY)
        before = ledger(entries)
        self.assertEqual(decode("ledger", encode("ledger", before)), before)
        turned = json.loads(json.dumps(entries))
        values = [entry["data"]["contract_data"]["val"] for entry in entries if "contract_data" in entry["data"]]
        for entry, value in zip((e for e in turned if "contract_data" in e["data"]), values[1:] + values[:1]):
            entry["data"]["contract_data"]["val"] = value
        found = diff.difference(before, ledger(turned, 101))
        self.assertGreater(len(found.changed), 20)
        said = "".join(diff.lines(found))
        self.assertTrue(said.isprintable())
        self.assertNotIn("\x1b", said)
        json.dumps(diff.as_json(found))


class PageTest(unittest.TestCase):
    def page(self, tx_set: Json, report_: Json, entries: List[Json]) -> Balance:
        before, after = ledger(entries[: len(entries) // 2]), ledger(entries[len(entries) // 3 :], 101)
        names = {"GAAACAQDAQCQMBYIBEFAWDANBYHRAEISCMKBKFQXDAMRUGY4DUPB6AQZ": "<script>alert(1)</script>"}
        parser = Balance()
        parser.feed(page_of(before, tx_set, report_, after, "dark", names))
        self.assertEqual((parser.open, parser.faults), ([], []))
        self.assertEqual(set(parser.seen) - set(ELEMENTS.split()), set())
        self.assertEqual(parser.seen.count("script"), 1)
        return parser

    def test_every_envelope(self) -> None:
        """A set of envelopes with every arm, and texts of others that are markup, and control sequences."""
        sent = samples(schema.ENVELOPE)
        results, successes = itertools.cycle(samples(schema.RESULT)), itertools.cycle([None, *samples(schema.SUCCESS)])
        made = [
            {
                "transaction_hash": hashes.envelope_hash(NETWORK, envelope),
                "result": next(results),
                "success": next(successes),
            }
            for envelope in sent
        ]
        tx_set = envelopes.parallel_set([[sent[:5], sent[5:6]], [sent[6:]]])
        text = "".join(self.page(tx_set, made, samples(schema.ENTRY)).text)
        self.assertIn("<b a=\"'&", text)
        self.assertNotIn("\x1b", text)

    def test_empty(self) -> None:
        """Sets without phases, stages, clusters or transactions."""
        for phases in (
            [],
            [{"v0": []}],
            [{"v1": {"base_fee": None, "execution_stages": stages}} for stages in ([], [[]], [[[]]])],
        ):
            tx_set = {"v1": {"previous_ledger_hash": NETWORK, "phases": phases}}
            self.assertIn("0 of 0", self.page(tx_set, [], []).text)

    def test_large_values(self) -> None:
        """Of long texts, vecs and maps the page shows the beginning, and says how long they are."""
        for large, said in (
            ({"string": "<i>" * 100_000}, "300,000 characters"),
            ({"bytes": "3c" * 100_000}, "100,000 bytes"),
            ({"vec": ["void"] * 100_000}, "and 99,960 more"),
            ({"map": [{"key": {"u32": number}, "val": "void"} for number in range(1000)]}, "and 960 more"),
            ({"vec": [{"vec": [{"vec": ["void"] * 100}] * 100}] * 100}, "and 99 more"),
        ):
            shown = value(large)
            self.assertLess(len(shown), 20_000)
            self.assertIn(said, shown)

    def test_many(self) -> None:
        """Of a large set the page shows the first transactions, and says how many it leaves out."""
        envelope = envelopes.envelope("G" + "A" * 55, envelopes.restore())
        envelope["tx"]["tx"]["source_account"] = samples(schema.ACCOUNT)[0]
        digest = hashes.envelope_hash(NETWORK, envelope)
        pair = {
            "transaction_hash": digest,
            "result": {"fee_charged": "0", "result": "tx_too_late", "ext": "v0"},
            "success": None,
        }
        text = "".join(self.page(envelopes.parallel_set([[[envelope] * 3000]]), [pair] * 3000, []).text)
        self.assertIn("and 2,500 more, which this page leaves out", text)


class BrokenFilesTest(unittest.TestCase):
    """Files with bytes that were changed by chance are read, or refused: nothing else comes of them."""

    def setUp(self) -> None:
        self.chance = random.Random(34)

    def broken(self, data: bytes) -> bytes:
        """Returns bytes with a few changes, or cut."""
        made = bytearray(data)
        for _ in range(self.chance.randint(1, 3)):
            made[self.chance.randrange(len(made))] = self.chance.choice((0, 1, 2, 7, 16, 127, 128, 255))
        return bytes(made[: self.chance.randrange(len(made))] if self.chance.random() < 0.2 else made)

    def test_files(self) -> None:
        for kind, value in (("envelope", samples(schema.ENVELOPE)[2]), ("ledger", ledger(samples(schema.ENTRY)))):
            data = encode(kind, value)
            for _ in range(60):
                broken = self.broken(data)
                place, line = self.refusal(kind, broken)
                if place is not None:
                    said = where.lines(kind, broken, place)
                    self.assertIn(line, said[0])
                    self.assertTrue("".join(said).isprintable())

    def refusal(self, kind: str, data: bytes) -> Tuple[Optional[int], str]:
        try:
            self.assertEqual(encode(kind, decode(kind, data)), data)
        except Refusal as refusal:
            return refusal.at, str(refusal)
        except ledgers.LedgerRefusal as refusal:
            if refusal.number in (2, 3, 4):
                self.assertGreater(len(where.record_lines(data, refusal.at)), 2)
            return refusal.at if refusal.number == 1 else 0, str(refusal)
        return None, ""

    def test_modules(self) -> None:
        data = module_bytes(os.path.join(REPOSITORY, "examples", "exchange", "exchange.hex"))
        for _ in range(300):
            for finding in lint.lint(self.broken(data)):
                self.assertTrue(str(finding).isprintable(), str(finding))

    @unittest.skipUnless(is_there(), "there is no program")
    def test_program(self) -> None:
        """The program says the same of broken files and modules: what it refuses, at which offset, and which import."""
        program, parts = Program(), {"value": samples(schema.VALUE)[-3], "envelope": samples(schema.ENVELOPE)[2]}
        parts.update(
            ledger=ledger(samples(schema.ENTRY)[:9]), set=envelopes.parallel_set([[samples(schema.ENVELOPE)[:2]]])
        )
        for kind, value in parts.items():
            data = encode(kind, value)
            for _ in range(12):
                broken = self.broken(data)
                said = program.run(["show", "--kind", kind, "--file", "file"], {"file": broken}).said.strip()
                mine = self.refusal(kind, broken)[1]
                self.assertEqual(said if "refused" in said else "", mine, broken.hex())
        module = module_bytes(os.path.join(REPOSITORY, "examples", "token", "token.hex"))
        for _ in range(40):
            broken = self.broken(module)
            said, found = program.vet(broken), [
                finding.text for finding in lint.lint(broken) if finding.level == "error"
            ]
            if said == "not a module" or said.startswith("unlinked"):
                self.assertTrue(found and found[0].startswith(said), (said, found))
            elif said.startswith("valid"):
                self.assertEqual(found, [])

    def test_names(self) -> None:
        """Names of imports and functions may be any text; control characters are shown as their codes."""
        name = "\x1b[31m\u202e\n" + "x" * 300
        imported = wasm.Import("l", name, 0)
        module = wasm.Module()
        module.types, module.imports = [wasm.FuncType(["i64"] * 500, ["i64"])], [imported] * 1000
        found = list(lint.few(lint.imports(module)))
        self.assertEqual(len(found), lint.MOST_FINDINGS + 1)
        self.assertTrue(all(str(finding).isprintable() and len(str(finding)) < 300 for finding in found))


if __name__ == "__main__":
    unittest.main()
