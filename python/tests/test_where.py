"""Where a refusal stands: its path, what is there, what could stand there."""
from __future__ import annotations

import unittest
from typing import Dict, List

from soroban_files import encode, ledgers, where
from soroban_files.world import new_ledger
from soroban_files.xdr import Json
from tests.tables import tables
from tests.test_tables import Conformance

ENTRY = {
    "last_modified_ledger_seq": 7,
    "data": {
        "contract_data": {
            "ext": "v0",
            "contract": "CAAQCAIBAEAQCAIBAEAQCAIBAEAQCAIBAEAQCAIBAEAQCAIBAEAQC526",
            "key": {"symbol": "balance"},
            "durability": "persistent",
            "val": {"i128": "5"},
        }
    },
    "ext": "v0",
}


def parts(lines: List[str]) -> Dict[str, str]:
    """Returns the lines of an explanation by their first words."""
    return {line.split()[0]: line.split(None, 1)[1] for line in lines[1:]}


class WhereTest(unittest.TestCase):
    def ledger(self, *records: Json) -> bytes:
        ledger = new_ledger("07" * 32, 100, 1000)
        ledger["v2"]["records"] = list(records)
        return encode("ledger", ledger, checked=False)

    def setUp(self) -> None:
        self.record = ledgers.record_of(ENTRY, 5000)

    def test_tag(self) -> None:
        data = bytearray(self.ledger(self.record))
        at = 252 + 4
        data[at + 3] = 8
        said = where.lines("ledger", bytes(data), at)
        self.assertEqual(said[0], f"ledger of {len(data)} bytes: ledger refused: 1 at {at}: tag")
        self.assertEqual(parts(said)["path"], f"v2.records[0].entry.data (its number), from offset {at} on")
        self.assertEqual(parts(said)["there"], "00000008 = 8")
        self.assertEqual(parts(said)["allowed"], "data of an entry: 6 contract_data, 7 contract_code")

    def test_end(self) -> None:
        data = self.ledger(self.record)[:-3]
        said = where.lines("ledger", data, len(data))
        self.assertIn("v2.records[0].ttl.live_until_ledger_seq", parts(said)["path"])
        self.assertEqual(parts(said)["there"], "00")
        self.assertEqual(parts(said)["missing"], "the item has 4 bytes, and 1 is left")

    def test_offsets_that_are_read(self) -> None:
        data = self.ledger(self.record)
        said = where.lines("ledger", data, 38)  # within the protocol
        self.assertEqual(said[0], f"ledger of {len(data)} bytes: it is valid")
        self.assertEqual(parts(said)["path"], "v2.protocol, from offset 36 on")
        self.assertEqual(parts(said)["there"], "00000017 = 23")
        self.assertIn("behind its end", where.lines("ledger", data, len(data))[1])

    def test_trailing_and_base64(self) -> None:
        said = where.lines("value", bytes.fromhex("0000000100000001"), 4)
        self.assertEqual(parts(said)["allowed"], "nothing: the value ends here")
        said = where.lines("value", bytes.fromhex("0000000f0000000261620001"), 8)
        self.assertEqual(said[0], "value of 12 bytes: refused at 8: padding")
        self.assertEqual(parts(said)["allowed"], "symbol: its last bytes, and zeros up to a whole word")
        self.assertIn("nothing is known", where.lines("value", bytes.fromhex("00000063ffffffff"), 4)[1])

    def test_depth_and_limit(self) -> None:
        deep = bytes.fromhex("000000100000000100000001") * 100 + bytes(4)
        said = where.lines("value", deep, 1196)
        self.assertEqual(said[0], "value of 1204 bytes: refused at 1196: depth")
        self.assertEqual(parts(said)["allowed"], "vec: 0, as it stands at the last of 100 levels")
        said = where.lines("value", bytes.fromhex("0000000f00000021"), 4)
        self.assertEqual(parts(said)["allowed"], "symbol: a length of at most 32")

    def test_records(self) -> None:
        other = {**self.record, "ttl": {**self.record["ttl"], "key_hash": "00" * 32}}
        said = where.record_lines(self.ledger(other), 0)
        self.assertEqual(said[0], "record 0 of 1: the TTL's hash is not the hash of the record's key")
        self.assertEqual(parts(said)["allowed"], self.record["ttl"]["key_hash"])
        said = where.record_lines(self.ledger(self.record, self.record), 1)
        self.assertEqual(said[0], "record 1 of 2: a record's key does not come after the key before it")
        size = len(encode("record", self.record))
        self.assertIn(f"from offset {252 + size} on", parts(said)["path"])

    def test_bounds(self) -> None:
        """Of a ledger that is spelled well and refused, each field that is out of bounds is named."""
        ledger = new_ledger("07" * 32, 100, 1000)
        ledger["v2"]["protocol"] = 22
        ledger["v2"]["settings"]["min_temporary_ttl"] = 0
        said = where.lines("ledger", encode("ledger", ledger, checked=False), 0)
        why = "the protocol or the settings are out of bounds"
        self.assertEqual(said[0], f"ledger of 252 bytes: ledger refused: 5 at 0: {why}")
        self.assertEqual(said[1], "  bounds   v2.protocol is 22; allowed are 23 to 4,294,967,295")
        self.assertEqual(said[2], "  bounds   v2.settings.min_temporary_ttl is 0; allowed are 1 to 3,110,400")
        self.assertEqual(parts(said)["path"], "(the whole) (its number), from offset 0 on")
        said = where.lines("ledger", self.ledger(self.record, self.record), 0)
        self.assertEqual(said[1], "  record   --record 1 says more")

    def test_all_refusals(self) -> None:
        """Each refusal of a part in the tables has an item, and something that could stand there."""
        count = 0
        for table in tables("conformance"):
            for line in table.lines():
                words = line.text.split(" ")
                outcome = " ".join(line.outcome())
                if words[0] == "xdr" and outcome.startswith("refused at "):
                    kind = Conformance.KINDS.get(words[1], words[1])
                    at = int(outcome.split()[2].rstrip(":"))
                    data = table.spelled("".join(words[2:]).partition("=>")[0])
                    place = where.where(kind, data, at)
                    with self.subTest(line.place):
                        self.assertTrue(place.is_refused)
                        self.assertIsNotNone(place.item)
                        self.assertTrue(place.item and place.item.type.expects(place.item.role))
                        self.assertGreater(len(where.lines(kind, data, at)), 3)
                    count += 1
        self.assertGreater(count, 100)


if __name__ == "__main__":
    unittest.main()
