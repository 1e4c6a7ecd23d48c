"""Values, texts and strkeys, and JSON that is no value."""
from __future__ import annotations

import unittest

from soroban_files import Misfit, encode, schema, strkey, values
from soroban_files.schema import read, write
from soroban_files.values import i128, mapping, parse, symbol, u32, u64, vec
from soroban_files.xdr import Json, escaped, unescaped

# The examples of SEP-23.
ACCOUNT = "GA7QYNF7SOWQ3GLR2BGMZEHXAVIRZA4KVWLTJJFC7MGXUA74P7UJVSGZ"
KEY = "3f0c34bf93ad0d9971d04ccc90f705511c838aad9734a4a2fb0d7a03fc7fe89a"
STRKEYS = {
    ACCOUNT: KEY,
    "MA7QYNF7SOWQ3GLR2BGMZEHXAVIRZA4KVWLTJJFC7MGXUA74P7UJUAAAAAAAAAAAACJUQ": KEY + "0000000000000000",
    "MA7QYNF7SOWQ3GLR2BGMZEHXAVIRZA4KVWLTJJFC7MGXUA74P7UJVAAAAAAAAAAAAAJLK": KEY + "8000000000000000",
    "PA7QYNF7SOWQ3GLR2BGMZEHXAVIRZA4KVWLTJJFC7MGXUA74P7UJUAAAAAQACAQDAQCQMBYIBEFAWDANBYHRAEISCMKBKFQXDAMRUGY4DUPB6IBZGM": KEY
    + "000000200102030405060708090a0b0c0d0e0f101112131415161718191a1b1c1d1e1f20",
    "CA7QYNF7SOWQ3GLR2BGMZEHXAVIRZA4KVWLTJJFC7MGXUA74P7UJUWDA": KEY,
    "LA7QYNF7SOWQ3GLR2BGMZEHXAVIRZA4KVWLTJJFC7MGXUA74P7UJUPJN": KEY,
    "BAAD6DBUX6J22DMZOHIEZTEQ64CVCHEDRKWZONFEUL5Q26QD7R76RGR4TU": "00" + KEY,
}
REFUSED_STRKEYS = (
    "GAAAAAAAACGC6",  # too short
    "GA7QYNF7SOWQ3GLR2BGMZEHXAVIRZA4KVWLTJJFC7MGXUA74P7UJVSGA",  # another checksum
    "GA7QYNF7SOWQ3GLR2BGMZEHXAVIRZA4KVWLTJJFC7MGXUA74P7UJVSGZA",  # a character too much
    "CA7QYNF7SOWQ3GLR2BGMZEHXAVIRZA4KVWLTJJFC7MGXUA74P7UJVSGZ",  # the letter of another kind
    "GA7QYNF7SOWQ3GLR2BGMZEHXAVIRZA4KVWLTJJFC7MGXUA74P7UJVSG=",
    "",
)


class StrkeyTest(unittest.TestCase):
    def test_strkeys(self) -> None:
        for text, payload in STRKEYS.items():
            self.assertEqual(strkey.decode(text, text[0]).hex(), payload)
            self.assertEqual(strkey.encode(text[0], bytes.fromhex(payload)), text)

    def test_refused(self) -> None:
        for text in REFUSED_STRKEYS:
            with self.assertRaises(strkey.BadStrkey, msg=text):
                strkey.decode(text, "GMCPLB")

    def test_signers(self) -> None:
        for payload in (b"", b"\1", b"\1\2\3\4", bytes(64)):
            spelled = (
                bytes.fromhex("00000003" + KEY) + len(payload).to_bytes(4, "big") + payload + bytes(-len(payload) % 4)
            )
            signer = read(schema.SIGNER, spelled)
            self.assertEqual(signer[0], "P")
            self.assertEqual(write(schema.SIGNER, signer), spelled)
        with self.assertRaises(Misfit):
            write(schema.SIGNER, strkey.encode("P", bytes.fromhex(KEY) + bytes.fromhex("00000005")))


class TextTest(unittest.TestCase):
    def test_escapes(self) -> None:
        for data in (b"", b"a\\b", b"\\x41", b"\0\t\n\r\\", bytes(range(256)), b"\\\\", "ü".encode()):
            self.assertEqual(unescaped(escaped(data)), data)
        self.assertEqual(escaped(b"a\x00\xff\\"), "a\\0\\xff\\\\")
        self.assertEqual(unescaped("ü"), "ü".encode())
        for text in ("\\", "\\q", "\\x4", "\\xgg"):
            with self.assertRaises(ValueError, msg=text):
                unescaped(text)


class ValueTest(unittest.TestCase):
    def test_python(self) -> None:
        made = vec(None, True, b"\1", [u32(5)], mapping(b=u64(2), a=i128(-1)))
        self.assertEqual(values.plain(made), [None, True, b"\1", [5], {"a": -1, "b": 2}])
        self.assertEqual(values.line(made), "[void, true, 0x01, [5], {a: -1_i128, b: 2_u64}]")
        self.assertEqual(read(schema.VALUE, write(schema.VALUE, made)), made)
        for item in (5, "text", {"a": 1, "b": 2}, 1.5):
            with self.assertRaises(TypeError):
                values.value(item)

    def test_order(self) -> None:
        keys = [
            u32(7),
            symbol("b"),
            symbol("a"),
            symbol("B"),
            vec(symbol("a"), u32(10)),
            vec(symbol("a"), u32(9)),
            u64(10),
            u64(9),
        ]
        pairs = mapping(*((key, None) for key in keys))["map"]
        self.assertEqual(
            [values.line(pair["key"]) for pair in pairs], ["7", "9_u64", "10_u64", "B", "a", "b", "[a, 9]", "[a, 10]"]
        )

    def test_words(self) -> None:
        self.assertEqual(parse("u32:5"), u32(5))
        self.assertEqual(parse("i128:-7"), i128(-7))
        self.assertEqual(parse("bytes:00FF"), {"bytes": "00ff"})
        self.assertEqual(parse("bool:true"), {"bool": True})
        self.assertEqual(parse(ACCOUNT), {"address": ACCOUNT})
        self.assertEqual(parse('[{"u32": 1}]'), vec(u32(1)))
        for word in ("5", "u32:x", "bool:1", "G", "nothing:5"):
            with self.assertRaises(ValueError, msg=word):
                parse(word)

    def test_misfits(self) -> None:
        for value, fault in (
            ({"u32": -1}, "at u32: -1 is no number from 0 to 4294967295"),
            ({"u32": True}, "at u32: True is no number from 0 to 4294967295"),
            ({"u64": "1.5"}, "at u64: '1.5' is no number"),
            ({"u64": "1_000"}, "at u64: '1_000' is no number"),
            ({"u64": " 5"}, "at u64: ' 5' is no number"),
            ({"bytes": "00 ff"}, "at bytes: '00 ff' is not hex digits"),
            ({"bytes": 5}, "at bytes: 5 is not hex digits"),
            ({"vec": [{"bool": 1}]}, "at vec[0].bool: 1 is neither true nor false"),
            ({"symbol": "a" * 33}, "at symbol: it has 33 bytes, and at most 32 are allowed"),
            ({"map": [{"key": "void"}]}, "at map[0].val: the field of map entry is missing"),
            ({"map": [{"key": "void", "val": "void", "value": 1}]}, "at map[0]: map entry has no field 'value'"),
            ("symbol", "at the top: symbol of value has a body"),
            ({"void": None}, "at the top: void of value has no body"),
            ({"bytes": "0"}, "at bytes: '0' is not hex digits, two for each byte"),
            ({"address": "GA"}, "at address: 'GA' "),
            ({"address": {}}, "at address: {} is no text"),
        ):
            with self.assertRaises(Misfit) as caught:
                encode("value", value)
            self.assertTrue(str(caught.exception).startswith(fault), str(caught.exception))

    def test_levels(self) -> None:
        value: Json = "void"
        for _ in range(99):
            value = {"vec": [value]}
        self.assertEqual(read(schema.VALUE, write(schema.VALUE, value)), value)
        with self.assertRaises(Misfit):
            write(schema.VALUE, {"vec": [value]})


if __name__ == "__main__":
    unittest.main()
