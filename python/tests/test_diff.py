"""What changed between two ledgers."""
from __future__ import annotations

import copy
import unittest
from typing import List

from soroban_files import diff, ledgers
from soroban_files.values import i128, mapping, string, symbol, u32, vec
from soroban_files.world import new_ledger
from soroban_files.xdr import Json

CONTRACT = "CAAQCAIBAEAQCAIBAEAQCAIBAEAQCAIBAEAQCAIBAEAQCAIBAEAQC526"


def entry(key: Json, val: Json, seq: int = 90, durability: str = "persistent") -> Json:
    data = {"ext": "v0", "contract": CONTRACT, "key": key, "durability": durability, "val": val}
    return {"last_modified_ledger_seq": seq, "data": {"contract_data": data}, "ext": "v0"}


def ledger(seq: int, *records: Json) -> Json:
    made = new_ledger("07" * 32, seq, 1000 + seq)
    made["v2"]["records"] = ledgers.sorted_records(list(records))
    return made


class DiffTest(unittest.TestCase):
    def lines(self, before: Json, after: Json) -> List[str]:
        return diff.lines(diff.difference(before, after))

    def test_equal(self) -> None:
        self.assertEqual(self.lines(ledger(100), ledger(100)), ["the ledgers are equal"])

    def test_header(self) -> None:
        self.assertEqual(self.lines(ledger(100), ledger(101)), ["close_time: 1100 -> 1101", "seq: 100 -> 101"])
        fields = {name: part for name, part in ledger(100)["v2"].items() if name != "protocol"}
        self.assertEqual(self.lines({"v1": fields}, ledger(100)), ["the ledgers are equal"])
        later = copy.deepcopy(ledger(100))
        later["v2"]["settings"]["terms"]["mem_cpy"]["memory"]["linear"] = 9
        self.assertEqual(self.lines(ledger(100), later), ["settings.terms.mem_cpy.memory.linear: 0 -> 9"])

    def test_entries(self) -> None:
        gone, kept = ledgers.record_of(entry(symbol("a"), u32(1)), 200), ledgers.record_of(
            entry(symbol("b"), u32(2)), 200
        )
        made = ledgers.record_of(entry(symbol("c"), i128(-3), durability="temporary"), 116)
        longer = ledgers.record_of(entry(symbol("b"), u32(2)), 300)
        found = self.lines(ledger(100, gone, kept), ledger(100, longer, made))
        self.assertEqual(
            found,
            [
                "+ CAAQC..C526 temporary c = -3_i128, live until 116",
                "- CAAQC..C526 persistent a = 1, live until 200",
                "t CAAQC..C526 persistent b: live until 200 -> 300",
            ],
        )

    def test_look_alikes(self) -> None:
        """Keys of a map that look alike on a line are different keys."""
        long = "x" * 500
        pairs = [(u32(5), u32(1)), (symbol("5"), u32(2)), (string(long + "a"), u32(3)), (string(long + "b"), u32(4))]
        turned = [(key, u32(9 - number)) for number, (key, _) in enumerate(pairs)]
        one, other = (ledgers.record_of(entry(symbol("a"), mapping(*each)), 200) for each in (pairs, turned))
        self.assertEqual(len(diff.difference(ledger(100, one), ledger(100, other)).changed[0].fields), 4)

    def test_fields(self) -> None:
        old = mapping(count=u32(1), name=symbol("x"), list=vec(u32(1), u32(2)), gone=u32(9))
        new = mapping(count=u32(2), name=symbol("x"), list=vec(u32(1), u32(3)), made="void")
        records = [ledgers.record_of(entry(symbol("k"), value, seq), 200) for value, seq in ((old, 90), (new, 101))]
        found = diff.difference(ledger(100, records[0]), ledger(100, records[1]))
        (change,) = found.changed
        paths = {field.path: (field.before, field.after) for field in change.fields}
        self.assertEqual(
            paths,
            {
                "val.count": (u32(1), u32(2)),
                "val.list[1]": (u32(2), u32(3)),
                "val.gone": (u32(9), None),
                "val.made": (None, "void"),
                "last_modified_ledger_seq": (90, 101),
            },
        )
        self.assertIn("    val.gone: 9 -> nothing", diff.lines(found))
        self.assertEqual(diff.as_json(found)["changed"][0]["key"]["contract_data"]["key"], symbol("k"))

    def test_instances(self) -> None:
        def instance(code: str, *pairs: Json) -> Json:
            storage = mapping(*pairs)["map"] if pairs else None
            value = {"contract_instance": {"executable": {"wasm": code * 32}, "storage": storage}}
            return ledgers.record_of(entry("ledger_key_contract_instance", value), 200)

        found = self.lines(ledger(100, instance("0a")), ledger(100, instance("0b", (symbol("admin"), u32(5)))))
        self.assertEqual(
            found,
            [
                "~ CAAQC..C526 persistent ledger_key_contract_instance",
                "    executable: code 0a0a0a0a -> code 0b0b0b0b",
                "    storage.admin: nothing -> 5",
            ],
        )


if __name__ == "__main__":
    unittest.main()
