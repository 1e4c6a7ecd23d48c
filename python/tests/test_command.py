"""The command, as its users call it."""
from __future__ import annotations

import io
import json
import os
import re
import subprocess
import sys
import tempfile
import unittest
import unittest.mock
from typing import List, Tuple

from soroban_files import decode, encode, envelopes, hashes, ledgers, strkey, wallet
from soroban_files.command import main
from soroban_files.program import Program, is_there
from soroban_files.values import symbol
from soroban_files.world import new_ledger, module_bytes
from tests.tables import REPOSITORY
from tests.test_where import ENTRY

PACKAGE = os.path.dirname(os.path.dirname(os.path.abspath(__file__)))
TOKEN = os.path.join(REPOSITORY, "examples", "token", "token.hex")
ALICE = "name:alice"
ACCOUNT = strkey.encode("G", bytes(32))
ENTRY_CONTRACT = "CAAQCAIBAEAQCAIBAEAQCAIBAEAQCAIBAEAQCAIBAEAQCAIBAEAQC526"
NETWORK = hashes.network_id("Test")


class CommandTest(unittest.TestCase):
    def setUp(self) -> None:
        folder = tempfile.TemporaryDirectory()
        self.addCleanup(folder.cleanup)
        self.folder = folder.name

    def path(self, name: str) -> str:
        return os.path.join(self.folder, name)

    def put(self, name: str, data: bytes) -> str:
        with open(self.path(name), "wb") as file:
            file.write(data)
        return self.path(name)

    def get(self, name: str) -> bytes:
        with open(self.path(name), "rb") as file:
            return file.read()

    def run_it(self, *words: str, given: bytes = b"") -> Tuple[int, str, str]:
        """Runs the command; returns its status, its output and its errors."""
        streams = sys.stdin, sys.stdout, sys.stderr
        buffers = [io.BytesIO(data) for data in (given, b"", b"")]
        sys.stdin, sys.stdout, sys.stderr = map(io.TextIOWrapper, buffers)
        try:
            status = main(list(words))
        except SystemExit as left:
            status = int(left.code or 0)
        finally:
            sys.stdout.flush()
            sys.stderr.flush()
            said, errors = (buffer.getvalue().decode() for buffer in buffers[1:])
            sys.stdin, sys.stdout, sys.stderr = streams
        return status, said, errors

    def good(self, *words: str, given: bytes = b"") -> str:
        status, said, errors = self.run_it(*words, given=given)
        self.assertEqual((status, errors), (0, ""))
        return said

    def ledger(self, **changes: object) -> bytes:
        ledger = new_ledger("07" * 32, 100, 1000)
        ledger["v2"]["records"] = [ledgers.record_of(ENTRY, 5000)]
        ledger["v2"].update(changes)
        return encode("ledger", ledger, checked=False)

    def test_decode_and_encode(self) -> None:
        data = encode("value", {"vec": [symbol("ab")]})
        value = self.put("value", data)
        said = self.good("decode", "value", value)
        self.assertEqual(json.loads(said), {"vec": [symbol("ab")]})
        self.good("encode", "value", "--out", self.path("again"), given=said.encode())
        self.assertEqual(self.get("again"), data)
        text = self.good("encode", "value", "--base64", given=said.encode())
        self.assertEqual(
            json.loads(self.good("decode", "value", "-", "--base64", "--compact", given=text.encode())),
            {"vec": [symbol("ab")]},
        )

    def test_refusals(self) -> None:
        bad = self.put("bad", bytes.fromhex("0000000f0000000261620001"))
        status, said, errors = self.run_it("decode", "value", bad)
        self.assertEqual((status, said), (1, ""))
        self.assertEqual(errors, f"refused at 8: padding (symbol)\nsoroban-files where value {bad} 8 says more\n")
        self.assertIn("allowed  symbol: its last bytes, and zeros", self.good("where", "value", bad, "8"))
        ledger = self.put("ledger", self.ledger(protocol=22))
        self.assertEqual(
            self.run_it("decode", "ledger", ledger)[0::2],
            (3, "ledger refused: 5 at 0: the protocol or the settings are out of bounds\n"),
        )
        self.good("decode", "ledger", ledger, "--unchecked")
        verdicts = self.put("verdicts", bytes(3))
        self.assertEqual(self.run_it("decode", "verdicts", verdicts)[0::2], (3, "verdicts refused at 3: end\n"))
        schedule = self.put("schedule", bytes.fromhex("00000001"))
        self.assertEqual(self.run_it("decode", "schedule", schedule)[0::2], (3, "schedule refused at 4: end\n"))
        self.assertEqual(self.run_it("decode", "set", self.path("none"))[0], 4)
        self.assertEqual(self.run_it("decode", "nothing", bad)[0], 2)
        self.assertEqual(self.run_it("decode", "value", bad, "--base64")[0::2], (1, f"not base64: {bad}\n"))
        self.assertEqual(self.run_it("encode", "value", given=b"{")[0], 1)
        status, _, errors = self.run_it("encode", "value", given=b'{"u32": -1}')
        self.assertEqual((status, errors), (1, "at u32: -1 is no number from 0 to 4294967295\n"))

    def test_records(self) -> None:
        record = ledgers.record_of(ENTRY, 5000)
        ledger = self.put("ledger", self.ledger(records=[record, record]))
        status, _, errors = self.run_it("decode", "ledger", ledger)
        self.assertEqual(status, 3)
        self.assertIn(f"where ledger {ledger} --record 1 says more", errors)
        self.assertIn("does not come after the key before it", self.good("where", "ledger", ledger, "--record", "1"))

    def test_diff(self) -> None:
        one, other = self.put("one", self.ledger()), self.put("other", self.ledger(seq=101, records=[]))
        self.assertIn("- CAAQC..C526 persistent balance = 5_i128, live until 5000", self.good("diff", one, other))
        self.assertEqual(
            json.loads(self.good("diff", one, other, "--json"))["header"],
            [{"path": "seq", "before": 100, "after": 101}],
        )

    def test_lint(self) -> None:
        self.assertNotIn("error", self.good("lint", self.put("token.wasm", module_bytes(TOKEN))))
        self.assertEqual(self.run_it("lint", self.put("bad.wasm", b"\0asm\2\0\0\0"))[0], 1)

    @unittest.skipUnless(wallet.has_cryptography(), "the package cryptography is missing")
    def test_wallet(self) -> None:
        address = self.good("wallet", "key", ALICE).split()[1]
        secret = self.good("wallet", "key", ALICE, "--secret").split()[3]
        self.assertEqual(self.good("wallet", "key", self.put("seed", secret.encode() + b"\n")).split()[1], address)
        made = self.good("wallet", "key", "--save", self.path("new")).split()
        self.assertEqual(self.good("wallet", "key", self.path("new")).split(), made)
        self.assertEqual(os.stat(self.path("new")).st_mode & 0o777, 0o600)
        self.assertEqual(self.run_it("wallet", "key", "--save", self.path("new"))[0], 4)
        contract = self.good("wallet", "contract", address, "first", "--network", "Test").strip()
        self.good(
            "wallet",
            "call",
            contract,
            "buy",
            address,
            "i128:-5",
            "void",
            "--source",
            address,
            "--authorize",
            address,
            "--until",
            "500",
            "--nonce",
            "7",
            "--out",
            self.path("call"),
        )
        entry = [
            "wallet",
            "sign-entries",
            self.path("call"),
            "--network",
            "Test",
            "--key",
            ALICE,
            "--out",
            self.path("entries"),
        ]
        unsigned = self.good("wallet", "verify", self.path("call"), "--network", "Test", "--out", self.path("verdicts"))
        self.assertRegex(unsigned, f"bad  {address} signs [0-9a-f]+: it is not signed")
        self.good(*entry)
        other = self.good("wallet", "key", "name:bob").split()[1]
        self.assertEqual(
            self.run_it(*entry, "--key", "name:bob"),
            (0, "", f"no entry is of {other}: nothing is signed with its key\n"),
        )
        self.good(
            "wallet", "sign", self.path("entries"), "--network", "Test", "--key", ALICE, "--out", self.path("signed")
        )
        said = self.good("wallet", "verify", self.path("signed"), "--network", "Test", "--out", self.path("verdicts"))
        self.assertIn(f"good {address} signs", said)
        self.assertIn("is signed by its source", said)
        self.assertEqual(
            [verdict["key"] for verdict in json.loads(self.good("decode", "verdicts", self.path("verdicts")))],
            [address],
        )
        said = self.good("wallet", "verify", self.path("signed"), "--network", "Other", "--out", self.path("verdicts"))
        self.assertIn(f"bad  {address} signs", said)
        self.assertEqual(self.get("verdicts"), bytes(4))
        signed = self.path("signed")
        self.good("wallet", "set", signed, f"{signed},{signed}", "/", signed, "--out", self.path("set"))
        phase = json.loads(self.good("decode", "set", self.path("set")))["v1"]["phases"][1]["v1"]
        self.assertEqual([[len(cluster) for cluster in stage] for stage in phase["execution_stages"]], [[1, 2], [1]])
        self.good("wallet", "verify", "--set", self.path("set"), "--network", "Test", "--out", self.path("verdicts"))
        self.good("wallet", "bump", self.path("signed"), "--source", address, "--out", self.path("bump"))
        bump = json.loads(self.good("decode", "envelope", self.path("bump")))
        self.assertEqual(len(bump["tx_fee_bump"]["tx"]["inner_tx"]["tx"]["signatures"]), 1)

    def test_extended_keys(self) -> None:
        """The hash of a code may have capitals; what is no key is named."""
        words = ["wallet", "extend", "500", "--source", ACCOUNT, "--out", self.path("sent")]
        self.good(*words, "AB" * 32)
        footprint = decode("envelope", self.get("sent"))["tx"]["tx"]["ext"]["v1"]["resources"]["footprint"]
        self.assertEqual(footprint["read_only"], [envelopes.code_key("ab" * 32)])
        status, _, errors = self.run_it(*words, "zzz")
        self.assertEqual(status, 1)
        self.assertIn("'zzz' is no key: name a contract (C..)", errors)

    @unittest.skipUnless(wallet.has_cryptography() and is_there(), "the package cryptography or the program is missing")
    def test_fill(self) -> None:
        network = hashes.network_id("Test")
        ledger = self.put("ledger", encode("ledger", new_ledger(network, 100, 1000)))
        address = self.good("wallet", "key", ALICE).split()[1]
        module = self.put("token.wasm", module_bytes(TOKEN))
        self.good("wallet", "upload", module, "--source", address, "--out", self.path("upload"))
        self.good("wallet", "fill", self.path("upload"), "--ledger", ledger, "--out", self.path("filled"))
        resources = json.loads(self.good("decode", "envelope", self.path("filled")))["tx"]["tx"]["ext"]["v1"][
            "resources"
        ]
        self.assertEqual(len(resources["footprint"]["read_write"]), 1)
        self.assertLess(len(module_bytes(TOKEN)), resources["write_bytes"])
        self.assertLess(resources["write_bytes"], 2 * len(module_bytes(TOKEN)))
        self.assertLess(resources["instructions"], 2**31)

    def close(self, envelope: str, number: int) -> str:
        """Takes an envelope into the ledger after `number`, by commands; returns what changed."""
        before, after = self.path(f"ledger-{number}"), self.path(f"ledger-{number + 1}")
        verify = ["wallet", "verify", "--ledger", before, "--out", self.path("v")]
        self.good(*verify, envelope)
        self.good("wallet", "fill", envelope, "--ledger", before, "--verdicts", self.path("v"), "--out", envelope)
        self.good("wallet", "sign", envelope, "--key", "name:admin", "--ledger", before, "--out", envelope)
        self.good("wallet", "set", envelope, "--out", self.path("set"))
        self.assertIn("is signed by its source", self.good(*verify, "--set", self.path("set")))
        files = [self.get(name) for name in ("set", f"ledger-{number}", "v")]
        applied = Program().apply(files[0], files[1], files[2], 2000 + number, is_logged=True)
        self.put("report", applied.report_file)
        self.put(f"ledger-{number + 1}", applied.ledger_file)
        words = ["--log", self.put("log", applied.log_file or b""), "--out", self.path("page")]
        self.good("explore", before, self.path("set"), self.path("report"), after, *words)
        self.assertRegex(self.get("page").decode(), r"[1-9]\d* changes?, footprint, limits, hash")
        return self.good("diff", before, after)

    @unittest.skipUnless(wallet.has_cryptography() and is_there(), "the package cryptography or the program is missing")
    def test_from_key_to_ledger(self) -> None:
        """A token is uploaded, created, minted, and transferred by who signs the recorded entry, by commands alone."""
        self.put("ledger-100", encode("ledger", new_ledger(NETWORK, 100, 1000)))
        module, sent = self.put("token.wasm", module_bytes(TOKEN)), self.path("sent")
        admin, alice, bob = (wallet.Key.named(name).address for name in ("admin", "alice", "bob"))
        by, out = ["--source", admin, "--authorize", "source"], ["--out", sent]
        self.good("wallet", "upload", module, "--source", admin, *out)
        self.assertIn("live until", self.close(sent, 100))
        code = decode("report", self.get("report"))[0]["success"]["return_value"]["bytes"]
        self.good("wallet", "create", code, admin, "--salt", "first", *by, *out)
        self.close(sent, 101)
        token = self.good("wallet", "contract", admin, "first", "--ledger", self.path("ledger-102")).strip()
        self.good("wallet", "call", token, "mint", alice, "u64:100", *by, *out)
        self.assertIn("= 100_u64, live until", self.close(sent, 102))
        transfer = ["wallet", "call", token, "transfer", alice, bob, "u64:25", "--source", admin]
        by_hand = ["--authorize", alice, "--until", "200", "--nonce", "7"]
        self.good(*transfer, *by_hand, "--out", self.path("by-hand"))
        self.good(*transfer, *out)
        self.good("wallet", "record", sent, "--ledger", self.path("ledger-103"), "--until", "200", "--nonce", "7", *out)
        self.assertEqual(self.get("sent"), self.get("by-hand"))
        record = ["wallet", "record", self.path("by-hand"), "--ledger", self.path("ledger-103"), "--until", "99"]
        mint = self.good("wallet", "call", token, "balance", alice, "--source", admin, *by_hand, "--out", self.path("ask"))
        self.assertEqual(mint, "")
        record[2] = self.path("ask")
        status, _, errors = self.run_it(*record, "--out", self.path("asked"))
        self.assertEqual((status, errors.split(":")[0]), (0, "no demand was found, or nothing ran"))
        self.assertEqual(envelopes.auth_entries(decode("envelope", self.get("asked"))), [])
        self.good("wallet", "sign-entries", sent, "--key", ALICE, "--ledger", self.path("ledger-103"), *out)
        found = self.close(sent, 103)
        self.assertIn("= 25_u64, live until", found)
        self.assertIn("val: 100_u64 -> 75_u64", found)

    def test_list(self) -> None:
        """A list has the envelopes in their order."""
        sent = [envelopes.envelope(ACCOUNT, envelopes.restore(), seq=number) for number in (1, 2)]
        names = [self.put(f"sent{number}", encode("envelope", it)) for number, it in enumerate(sent)]
        self.good("wallet", "list", *names, "--out", self.path("list"))
        self.assertEqual(decode("list", self.get("list")), sent)

    def test_json(self) -> None:
        """What is no JSON of a file is refused, also by its depth and its names."""
        for text, why in (
            (b"{", "not JSON: "),
            (b"\xff", "not JSON: "),
            (b"[" * 200_000, "it nests too deep"),
            (b'{"u32": 1, "u32": 2}', "the name 'u32' stands twice"),
            (b'{"string": "\\\\x  ab"}', "the escape \\x   is not"),
            (b'{"address": "' + b"G" * 1000 + b'"}', "has another checksum"),
            (b'{"u32": 1.0}', "1.0 is no number"),
            (b'{"u64": "' + b"9" * 5000 + b'"}', "is no number"),
        ):
            status, said, errors = self.run_it("encode", "value", given=text)
            self.assertEqual((status, said), (1, ""), text[:50])
            self.assertIn(why, errors)
            self.assertLess(len(errors), 300)

    def test_wrong_words(self) -> None:
        empty = self.put("empty", b"")
        for words, why in (
            (["decod"], "'decod' is none; is decode meant?"),
            (["decode", "ledgr", empty], "'ledgr' is none; is ledger meant?"),
            (["wallet", "verfy"], "is verify meant?"),
            (["where", "ledger", empty], "say either an offset, or --record"),
            (["where", "ledger", empty, "5", "--record", "1"], "say either an offset, or --record"),
            (["where", "set", empty, "--record", "1"], "--record is for ledgers"),
            (["wallet", "verify", "--network", "Test", "--out", "v"], "name envelopes, or a set with --set"),
        ):
            status, said, errors = self.run_it(*words)
            self.assertEqual((status, said), (2, ""), words)
            self.assertIn(why, errors)
        self.assertEqual(self.run_it("where", "value", empty, "-5")[0::2], (1, "-5 is no offset: they count from 0\n"))
        for text in ("{}", '"abc"', "[5]", "{", "u32:-1", "u32:x", "i128:" + "9" * 50, "bytes:0", "bool:1", "x", ""):
            status, _, errors = self.run_it("wallet", "call", ENTRY_CONTRACT, "f", text, "--source", ENTRY_CONTRACT)
            self.assertEqual(status, 1, text)
            self.assertIn("is no value: ", errors)

    def test_long_file(self) -> None:
        with unittest.mock.patch("soroban_files.command.MOST_BYTES", 3):
            void = self.put("void", bytes.fromhex("00000001"))
            self.assertEqual(self.run_it("decode", "value", void)[0::2], (6, f"too long: {void}\n"))
            self.assertEqual(self.run_it("decode", "value", "-", given=bytes(4))[0], 6)

    def test_names(self) -> None:
        ledger, tx_set = self.put("l", self.ledger(records=[])), self.put(
            "s", encode("set", envelopes.parallel_set([]))
        )
        report, after = self.put("r", encode("report", [])), self.put("a", self.ledger(records=[], seq=101))
        page = self.good("explore", ledger, tx_set, report, after, "--names", self.put("n", b'{"G": "alice"}'))
        self.assertIn("No entry changed.", page)
        for text in (b"[]", b'{"G": 5}', b"{"):
            status, said, errors = self.run_it(
                "explore", ledger, tx_set, report, after, "--names", self.put("n", text)
            )
            self.assertEqual((status, said), (1, ""))
            self.assertNotEqual(errors, "")

    def test_log(self) -> None:
        """With the change log the page has more; a log that does not fit, or that is none, is refused."""
        ledger, after = self.put("l", self.ledger()), self.put("n", self.ledger(seq=101, close_time="1005"))
        tx_set, report = self.put("s", encode("set", envelopes.parallel_set([[]]))), self.put("r", encode("report", []))
        header = {"old_seq": 100, "old_close_time": "1000", "new_close_time": "1005"}
        stage = {"transactions": [], "end": []}
        log = self.put("log", encode("log", {**header, "stages": [stage]}))
        more = self.put("more", encode("log", {**header, "stages": [stage, stage]}))
        words, out = ["explore", ledger, tx_set, report, after], self.path("page")
        self.assertNotIn("end of the stage", self.good(*words))
        self.assertIn("end of the stage", self.good(*words, "--log", log))
        status, said, errors = self.run_it(*words, "--log", more, "--out", out)
        self.assertEqual((status, said, errors), (8, "", "log does not fit: stages: the log has 2, the set 1\n"))
        status, said, errors = self.run_it(*words[:4], ledger, "--log", log, "--out", out)
        self.assertEqual((status, said), (8, ""))
        self.assertIn("log does not fit: header: it leads from ledger 100 closed at 1000 to ledger 101", errors)
        bad = self.put("bad", self.get("log")[:-1])
        status, said, errors = self.run_it(*words, "--log", bad, "--out", out)
        self.assertEqual((status, said), (1, ""))
        self.assertIn("refused at 31: end", errors)
        self.assertEqual(self.run_it(*words, "--log", self.path("none"))[0], 4)
        self.assertFalse(os.path.exists(out))

    @unittest.skipUnless(wallet.has_cryptography(), "the package cryptography is missing")
    def test_bad_seeds(self) -> None:
        """No message has the text of a seed, however wrong it is."""
        seed = wallet.Key.named("alice").secret
        other = "A" if seed[9] != "A" else "B"
        for wrong in (seed[:-1], seed + "A", seed[:9] + other + seed[10:]):
            for word in (wrong, self.put("seed", wrong.encode())):
                status, said, errors = self.run_it("wallet", "key", word)
                self.assertEqual((status, said), (1, ""))
                self.assertNotIn(seed[12:40], errors)
        for number in ("-1", str(2**64)):
            self.assertEqual(self.run_it("wallet", "key", ALICE, "--id", number)[0], 1)

    @unittest.skipUnless(wallet.has_cryptography(), "the package cryptography is missing")
    def test_flipped_bits(self) -> None:
        """An envelope's file with a flipped bit of the signature in its entry is no source of a verdict."""
        key = wallet.Key.named("alice")
        call = envelopes.call(ENTRY_CONTRACT, "f", [key])
        entry = envelopes.address_entry(key, envelopes.node(call), 7, until=500)
        made = envelopes.envelope(key, envelopes.invoke(call, [wallet.sign_entry(entry, NETWORK, key)]))
        data = envelopes.xdr(made)
        signature = key.sign(bytes.fromhex(hashes.payload_hash(NETWORK, entry)))
        start = data.index(signature)
        words = ["wallet", "verify", self.path("sent"), "--network", NETWORK, "--out", self.path("verdicts")]
        for bit in range(0, 8 * len(signature), 3):
            flipped = bytearray(data)
            flipped[start + bit // 8] ^= 1 << bit % 8
            self.put("sent", bytes(flipped))
            self.assertIn(f"bad  {key.address} signs", self.good(*words))
            self.assertEqual(self.get("verdicts"), bytes(4), f"bit {bit} is flipped")
        self.put("sent", data)
        self.assertIn(f"good {key.address} signs", self.good(*words))
        self.assertEqual(len(self.get("verdicts")), 4 + 64)

    def test_help(self) -> None:
        commands: List[List[str]] = [
            [],
            ["wallet"],
            *([name] for name in ("decode", "encode", "diff", "where", "lint", "explore")),
            *(["wallet", name] for name in ("key", "contract", "call", "upload", "create", "extend")),
            *(["wallet", name] for name in ("bump", "fill", "record", "sign", "sign-entries", "set", "list", "verify")),
        ]
        for words in commands:
            said = self.good(*words, "--help")
            self.assertIn("usage: soroban-files", said)
            lines = said.split("\n")
            for line, below in zip(lines, lines[1:]):
                if re.fullmatch("  (--?[a-z][a-z0-9-]*( [A-Z]+)?|[A-Z]+)", line) and line != "  COMMAND":
                    self.assertTrue(below.startswith(" " * 8), f"{' '.join(words)}:{line} has no help")

    def test_module(self) -> None:
        """`python3 -m soroban_files` is the command."""
        words = [sys.executable, "-m", "soroban_files", "decode", "value", "-", "--compact"]
        done = subprocess.run(words, cwd=PACKAGE, input=bytes.fromhex("00000001"), stdout=subprocess.PIPE, check=False)
        self.assertEqual((done.returncode, done.stdout), (0, b'"void"\n'))


if __name__ == "__main__":
    unittest.main()
