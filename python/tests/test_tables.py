"""Each file of all tables of cases goes to JSON and back, and what the tables say is refused is refused at the same place."""
from __future__ import annotations

import itertools
import json
import os
import unittest
from typing import Dict, Iterator, List, Optional, Tuple

from soroban_files import decode, encode, files, hashes, ledgers, schema
from soroban_files.xdr import Json, Refusal
from tests.tables import Line, Table, tables

LARGE = 1_000_000
Room = Dict[str, Optional[bytes]]  # files by their names; of some a table tells only the hash


def there_and_back(kind: str, data: bytes, checked: bool = True) -> Json:
    """Decodes bytes, takes the JSON through its text if that is not large, and encodes it again; returns the JSON."""
    value = decode(kind, data, checked)
    again = encode(kind, json.loads(json.dumps(value)) if len(data) < LARGE else value, checked)
    if again != data:
        raise AssertionError(f"{data[:1000].hex()} came back as {again[:1000].hex()}")
    return value


class Conformance(unittest.TestCase):
    """The tables of `conformance`: parts of files, and hashes."""

    KINDS = {"envelope-file": "envelope", "set-file": "set"}

    def test_rows(self) -> None:
        counts: Dict[str, int] = {}
        for table in tables("conformance"):
            for line in table.lines():
                kind, *words = line.text.partition(" => ")[0].split(" ")
                judge = getattr(self, "row_" + kind.replace("-", "_"), None)
                if judge:
                    with self.subTest(line.place):
                        judge(table, words, table.plain(" ".join(line.outcome())))
                    counts[kind] = counts.get(kind, 0) + 1
        self.assertGreater(counts["xdr"], 300)
        for kind in ("ledger", "followed", "payload", "contract-id", "envelope-hash", "key-hash", "base64"):
            self.assertGreater(counts[kind], 0, kind)

    def row_xdr(self, table: Table, words: List[str], outcome: str) -> None:
        kind, data = self.KINDS.get(words[0], words[0]), table.spelled("".join(words[1:]))
        try:
            there_and_back(kind, data, checked=False)
            came = f"ok {len(data)}"
        except Refusal as refusal:
            came = str(refusal)
        except ledgers.LedgerRefusal as refusal:
            came = str(refusal.spelling)
        self.assertEqual(came, outcome)

    def row_ledger(self, table: Table, words: List[str], outcome: str, follows: bool = False) -> None:
        data = table.spelled(words[0])
        try:
            ledger = ledgers.read(data, follows)
        except ledgers.LedgerRefusal as refusal:
            self.assertEqual(f"refused {refusal.number} at {refusal.at}", outcome)
            return
        self.assertEqual(there_and_back("ledger", data), ledger)
        fields = ledgers.body(ledger)
        said = (fields["seq"], ledgers.protocol(ledger), fields["close_time"], len(fields["records"]))
        self.assertEqual("ledger %d of protocol %d closed at %s with %d records" % said, outcome)

    def row_followed(self, table: Table, words: List[str], outcome: str) -> None:
        self.row_ledger(table, words, outcome, follows=True)

    def row_written(self, table: Table, words: List[str], outcome: str) -> None:
        ledger = ledgers.migrated(decode("ledger", table.spelled(words[0])))
        self.assertEqual(encode("ledger", ledger).hex(), outcome)

    def row_rises(self, table: Table, words: List[str], outcome: str) -> None:
        for word in words[1:]:
            there_and_back(words[0], table.spelled(word))

    def row_payload(self, table: Table, words: List[str], outcome: str) -> None:
        network, entry = (table.spelled(word) for word in words)
        self.assertEqual(hashes.payload_hash(network.hex(), there_and_back("auth", entry)), outcome)

    def row_contract_id(self, table: Table, words: List[str], outcome: str) -> None:
        network, preimage = (table.spelled(word) for word in words)
        address = hashes.contract_id(network.hex(), there_and_back("preimage", preimage))
        self.assertEqual(schema.write(schema.CONTRACT_ID, address).hex(), outcome)

    def row_tx_hash(self, table: Table, words: List[str], outcome: str) -> None:
        network, transaction = (table.spelled(word) for word in words)
        self.assertEqual(hashes.transaction_hash(network.hex(), there_and_back("transaction", transaction)), outcome)

    def row_envelope_hash(self, table: Table, words: List[str], outcome: str) -> None:
        network, envelope = (table.spelled(word) for word in words)
        self.assertEqual(hashes.envelope_hash(network.hex(), there_and_back("envelope", envelope)), outcome)

    def row_key_hash(self, table: Table, words: List[str], outcome: str) -> None:
        self.assertEqual(ledgers.key_hash(there_and_back("key", table.spelled(words[0]))), outcome)

    def row_key_of(self, table: Table, words: List[str], outcome: str) -> None:
        self.assertEqual(ledgers.key_bytes(there_and_back("entry", table.spelled(words[0]))).hex(), outcome)

    def row_verdict(self, table: Table, words: List[str], outcome: str) -> None:
        there_and_back("verdicts", table.spelled(words[0]))

    def row_report(self, table: Table, words: List[str], outcome: str) -> None:
        there_and_back("report", bytes.fromhex(outcome))

    def row_applied_report(self, table: Table, words: List[str], outcome: str) -> None:
        there_and_back("report", bytes.fromhex(outcome))
        self.row_apply(table, words, outcome)

    def row_apply(self, table: Table, words: List[str], outcome: str) -> None:
        there_and_back("ledger", table.spelled(words[0]))
        there_and_back("set", table.spelled(words[1]))

    def row_base64(self, table: Table, words: List[str], outcome: str) -> None:
        try:
            came = files.from_base64(table.spelled(words[0])).hex()
        except files.NotBase64:
            came = "not base64"
        self.assertEqual(came, outcome)


class HostCalls(unittest.TestCase):
    """The tables of `conformance` that call functions of the host: ledgers, keys, values, entries and events."""

    KINDS = {"read-only": "key", "read-write": "key", "frame": "value", "now": "entry", "gone": "key", "event": "event"}

    def test_rows(self) -> None:
        found = set()
        for table in tables("conformance"):
            for line in table.lines():
                for kind, data in self.items(table, line):
                    if (kind, data) not in found:
                        with self.subTest(line.place):
                            there_and_back(kind, data)
                    found.add((kind, data))
        self.assertGreater(len(found), 300)

    def items(self, table: Table, line: Line) -> Iterator[Tuple[str, bytes]]:
        """Yields the files and parts that a line spells."""
        word, *rest = line.text.partition(" => ")[0].split(" ")
        if word == "previous":
            yield "ledger", table.spelled("".join(rest))
        for text in rest if word in self.KINDS else []:
            yield self.KINDS[word], table.spelled(text)
        for text in line.outcome():
            word, *rest = text.split(" ")
            if word in self.KINDS and rest and "[" not in text:  # a long value is shown by its size alone
                yield self.KINDS[word], table.spelled(rest[0])
            if "shows" in rest:
                shown = rest[rest.index("shows") + 1 :]
                for value in itertools.takewhile(lambda text: text not in ("memory", "costs"), shown):
                    if "[" not in value and "]" not in value and value != "bytes":
                        yield "value", table.spelled(value)


class Command:
    """A run of the program in a table: its options, the files that it finds, and what it is expected to do."""

    STORED = {
        "report": "report",
        "ledger-out": "ledger",
        "out": "simulation",
        "ledger": "ledger",
        "verdicts": "verdicts",
        "set": "set",
        "log": "log",
    }

    def __init__(self, words: List[str], room: Room, outcome: List[str]) -> None:
        self.name, self.room = words[0], room
        self.options: Dict[str, str] = {}
        rest = iter(words[1:])
        for word in rest:
            option, equals, value = word[2:].partition("=")
            self.options[option] = value if equals or option == "base64" else next(rest, "")
        code, _, first = outcome[0].partition(" ")
        self.code, self.said, self.lines = int(code), first, outcome[1:]

    def inputs(self) -> Iterator[Tuple[str, str, bool]]:
        """Yields the kind and name of each input in the order in which they are judged, and whether it may be base64."""
        text = "base64" in self.options
        if self.name in ("apply", "simulate"):
            yield "ledger", self.options["ledger"], False
            yield "verdicts", self.options["verdicts"], False
            yield ("set", self.options["set"], text) if self.name == "apply" else ("envelope", self.options["tx"], text)
            if "schedule" in self.options:
                yield "schedule", self.options["schedule"], False
        elif self.name == "apply-list":
            for kind in ("ledger", "verdicts", "list"):
                yield kind, self.options[kind], False
        elif self.name == "record":
            yield "ledger", self.options["ledger"], False
            yield "envelope", self.options["tx"], False
        elif self.name == "show":
            yield self.options["kind"], self.options["file"], text
        elif self.name in ("migrate", "play"):
            yield "ledger", self.options["ledger"], False
            if self.name == "play":
                yield "log", self.options["log"], False
        elif self.name == "build":
            yield "list", self.options["list"], False

    def follows(self) -> bool:
        """Returns whether another ledger has to be able to follow the one that is read."""
        forwards = self.name == "play" and self.options["back"] == "0"
        return forwards or self.name in ("apply", "apply-list", "record", "simulate")

    def judged(self) -> Optional[str]:
        """Returns the line of the first refusal, after it has taken all inputs there and back."""
        for kind, name, text in self.inputs():
            data = self.room[name] or b""
            try:
                data = files.from_base64(data) if text else data
                there_and_back(kind, data)
                if kind == "ledger":
                    ledgers.read(data, follows=self.follows())
            except files.NotBase64:
                return f"not base64: {name}"
            except Refusal as refusal:
                return f"{kind} refused at {refusal.at}" if kind in ("verdicts", "schedule") else str(refusal)
            except ledgers.LedgerRefusal as refusal:
                return str(refusal)
        return None

    def stored(self) -> Iterator[Tuple[str, str, bytes]]:
        """Yields the kind, name and bytes of each file that the outcome spells."""
        for line in self.lines:
            word, _, rest = line.partition(" ")
            name, _, digits = rest.partition(" ")
            kinds = [kind for option, kind in self.STORED.items() if self.options.get(option) == name]
            if word == "stores" and kinds and " " not in digits:
                yield "entries" if self.name == "record" else kinds[0], name, bytes.fromhex(digits)


class Commands(unittest.TestCase):
    """The tables of `command_cases`: what whole commands read, refuse and store."""

    def test_rows(self) -> None:
        self.counts = {"refused": 0, "read": 0, "stored": 0, "hashes": 0}
        for table in tables("command_cases"):
            self.table(table)
        self.assertGreater(self.counts["refused"], 100)
        self.assertGreater(self.counts["read"], 500)
        self.assertGreater(self.counts["stored"], 400)
        self.assertGreater(self.counts["hashes"], 100)

    def table(self, table: Table) -> None:
        self.disk: Room = {}
        memory: Room = {}
        room, fails = memory, False
        for line in table.lines():
            word, _, rest = line.text.partition(" => ")[0].partition(" ")
            name, _, spelled = rest.partition(" ")
            if word == "use":
                room = self.disk if name == "disk" else memory
            elif word == "file":
                room[name] = table.spelled(spelled + "".join(line.below))
            elif word in ("hex", "copy"):
                room[name] = data_file(table, spelled, word == "hex")
            elif word in ("no", "long"):
                room[name] = None
            elif word == "fail":
                fails = True
            elif word == "run":
                with self.subTest(line.place):
                    self.run_line(table, table.words(rest), room, [table.plain(text) for text in line.outcome()], fails)
                fails = False

    def run_line(self, table: Table, words: List[str], room: Room, outcome: List[str], fails: bool) -> None:
        if outcome[0][:1] not in ("0", "1", "3") or words[0] == "vet" or fails:
            return
        command = Command(words, room, outcome)
        stored = list(command.stored())
        if room is self.disk:
            room.update({name: data for _, name, data in stored})
        if any(room.get(name) is None for _, name, _ in command.inputs()):
            return  # the table tells only the hash of this file
        refusal = command.judged()
        if "refused" in command.said or "not base64" in command.said:
            self.assertEqual(refusal, command.said)
            self.counts["refused"] += 1
            return
        self.assertIsNone(refusal)
        self.counts["read"] += 1
        for kind, _, data in stored:
            value = there_and_back(kind, data)
            self.counts["stored"] += 1
            if kind == "report":
                self.names_envelopes(command, value)

    def names_envelopes(self, command: Command, report: Json) -> None:
        """A report names the envelopes by their hashes, in their order. A run that stops names some of them."""
        room, options = command.room, command.options
        network = ledgers.body(decode("ledger", room[options["ledger"]] or b""))["network_id"]
        named = [hashes.envelope_hash(network, envelope) for envelope in self.sent(command)]
        reported = [pair["transaction_hash"] for pair in report]
        if "steps" in options:
            rest = iter(named)
            self.assertTrue(all(name in rest for name in reported))
        else:
            self.assertEqual(reported, named)
        self.counts["hashes"] += len(reported)

    def sent(self, command: Command) -> List[Json]:
        """Returns the envelopes that a command applies."""
        room, options = command.room, command.options
        if command.name == "apply-list":
            return list(decode("list", room[options["list"]] or b""))
        text = room[options["set"]] or b""
        return envelopes_of(decode("set", files.from_base64(text) if "base64" in options else text))


def envelopes_of(tx_set: Json) -> List[Json]:
    """Returns all envelopes of a set, in their order."""
    found: List[Json] = []
    for phase in tx_set["v1"]["phases"]:
        for component in phase.get("v0", []):
            found += component["txset_comp_txs_maybe_discounted_fee"]["txs"]
        for stage in phase.get("v1", {}).get("execution_stages", []):
            for cluster in stage:
                found += cluster
    return found


def data_file(table: Table, path: str, is_hex: bool) -> bytes:
    """Returns a file of a crate's data folder, byte by byte or of hex digits with remarks."""
    with open(os.path.join(os.path.dirname(table.path), path), "rb") as file:
        data = file.read()
    if not is_hex:
        return data
    return bytes.fromhex("".join(line.split("#")[0] for line in data.decode().split("\n")))


if __name__ == "__main__":
    unittest.main()
