"""Keys, envelopes and signatures; a signature with a flipped bit gives no verdict."""
from __future__ import annotations

import copy
import unittest

from soroban_files import envelopes, hashes, schema, strkey, values, wallet
from soroban_files.xdr import Json

NETWORK = hashes.network_id("Test SDF Network ; September 2015")
CONTRACT = strkey.encode("C", bytes(range(32)))


@unittest.skipUnless(wallet.has_cryptography(), "the package cryptography is missing")
class WalletTest(unittest.TestCase):
    def setUp(self) -> None:
        self.alice, self.bob = wallet.Key.named("alice"), wallet.Key.named("bob")

    def envelope(self, *entries: Json) -> Json:
        call = envelopes.call(CONTRACT, "swap", [self.alice, values.i128(5)])
        return envelopes.envelope(self.alice, envelopes.invoke(call, entries), seq=7)

    def entry(self, key: wallet.Key, nonce: int) -> Json:
        root = envelopes.node(envelopes.call(CONTRACT, "swap", [self.alice, values.i128(5)]))
        return envelopes.address_entry(key, root, nonce, until=500)

    def test_keys(self) -> None:
        # The first test of RFC 8032, section 7.1.
        key = wallet.Key.from_secret("9d61b19deffd5a60ba844af492ec2cc44449c5697b326919703bac031cae7f60")
        self.assertEqual(key.public.hex(), "d75a980182b10ab7d54bfed3c964073a0ee172f3daa62325af021a68f707511a")
        self.assertTrue(key.sign(b"").hex().startswith("e5564300c360ac729086e2cc806e828a84877f1eb8e5d974"))
        self.assertEqual(wallet.Key.from_secret(key.secret).address, key.address)
        self.assertEqual(envelopes.public_key(key.muxed(5)), key.public)

    def test_transaction_signatures(self) -> None:
        signed = wallet.sign(self.envelope(), NETWORK, self.alice)
        self.assertTrue(wallet.signed_by(signed, NETWORK))
        self.assertFalse(wallet.signed_by(wallet.sign(self.envelope(), NETWORK, self.bob), NETWORK))
        bump = envelopes.fee_bump(signed, self.bob, 1000)
        self.assertFalse(wallet.signed_by(bump, NETWORK))
        bump = wallet.sign(bump, NETWORK, self.bob)
        self.assertTrue(wallet.signed_by(bump, NETWORK))
        self.assertEqual(schema.read(schema.ENVELOPE, envelopes.xdr(bump)), bump)

    def test_verdicts(self) -> None:
        envelope = wallet.sign_entries(
            self.envelope(self.entry(self.alice, 1), self.entry(self.bob, 2)), NETWORK, self.alice
        )
        judged = wallet.judge(envelope, NETWORK)
        self.assertEqual([not entry.fault for entry in judged], [True, False])
        payload = hashes.payload_hash(NETWORK, self.entry(self.alice, 1))
        self.assertEqual(wallet.verdicts([envelope], NETWORK), [{"key": self.alice.address, "payload": payload}])
        bump = envelopes.fee_bump(envelope, self.bob, 1000)
        self.assertEqual(wallet.verdicts([bump, envelope], NETWORK), wallet.verdicts([envelope], NETWORK))

    def test_flipped_bits(self) -> None:
        entry = wallet.sign_entry(self.entry(self.alice, 1), NETWORK, self.alice)
        signature = bytes.fromhex(wallet_signature(entry))
        for bit in range(8 * len(signature)):
            flipped = bytearray(signature)
            flipped[bit // 8] ^= 1 << bit % 8
            forged = copy.deepcopy(entry)
            forged["credentials"]["address"]["signature"] = wallet.account_signature(self.alice.public, bytes(flipped))
            self.assertEqual(wallet.verdicts([self.envelope(forged)], NETWORK), [], f"bit {bit} is flipped")
        self.assertEqual(len(wallet.verdicts([self.envelope(entry)], NETWORK)), 1)

    def test_changed_entries(self) -> None:
        entry = wallet.sign_entry(self.entry(self.alice, 1), NETWORK, self.alice)
        self.assertEqual(wallet.verdicts([self.envelope(entry)], hashes.network_id("another network")), [])
        for field, other in (
            ("nonce", "2"),
            ("signature_expiration_ledger", 501),
            ("address", self.bob.address),
            ("signature", "void"),
        ):
            changed = copy.deepcopy(entry)
            changed["credentials"]["address"][field] = other
            self.assertEqual(wallet.verdicts([self.envelope(changed)], NETWORK), [], field)
        for shape in (
            {"vec": []},
            {"vec": None},
            {"vec": entry["credentials"]["address"]["signature"]["vec"] * 2},
            {"bytes": ""},
        ):
            changed = copy.deepcopy(entry)
            changed["credentials"]["address"]["signature"] = shape
            self.assertEqual(wallet.verdicts([self.envelope(changed)], NETWORK), [])

    def test_shapes(self) -> None:
        """A signature counts only in the one shape, with the account's own key."""
        entry = wallet.sign_entry(self.entry(self.alice, 1), NETWORK, self.alice)
        (member,) = entry["credentials"]["address"]["signature"]["vec"]
        extra = {"map": member["map"] + [{"key": values.symbol("weight"), "val": values.u32(1)}]}
        turned = {"map": member["map"][::-1]}
        named = {"map": [{**member["map"][0], "val": values.data(self.bob.public)}, member["map"][1]]}
        parts = wallet.signature_parts({"vec": [member]})
        self.assertEqual(parts, [(self.alice.public, bytes.fromhex(wallet_signature(entry)))])
        for shape in (extra, turned, named):
            changed = copy.deepcopy(entry)
            changed["credentials"]["address"]["signature"] = {"vec": [shape]}
            self.assertEqual(wallet.verdicts([self.envelope(changed)], NETWORK), [])

    def test_several_keys(self) -> None:
        """Other keys may sign, too, if their signatures are good and the keys rise."""
        entry = self.entry(self.alice, 1)
        payload = hashes.payload_hash(NETWORK, entry)
        keys = sorted((self.alice, self.bob), key=lambda key: key.public)
        members = [key.account_signature(payload)["vec"][0] for key in keys]
        alone = self.bob.account_signature(payload)["vec"]
        bad = wallet.account_signature(self.bob.public, bytes(64))["vec"]
        mixed = [bad[0] if key is self.bob else member for key, member in zip(keys, members)]
        for shape, count in ((members, 1), (members[::-1], 0), (alone, 0), (mixed, 0)):
            entry["credentials"]["address"]["signature"] = {"vec": shape}
            self.assertEqual(len(wallet.verdicts([self.envelope(entry)], NETWORK)), count)

    def test_margins(self) -> None:
        self.assertEqual(wallet.Limits(100, 11, 0).with_margin(20), wallet.Limits(120, 14, 0))
        self.assertEqual(wallet.Limits(2**32 - 1, 1, 1).with_margin(20)[0], 2**32 - 1)


def wallet_signature(entry: Json) -> str:
    """Returns the signature in an entry of an account, as hex digits."""
    pairs = entry["credentials"]["address"]["signature"]["vec"][0]["map"]
    return next(pair["val"]["bytes"] for pair in pairs if pair["key"] == {"symbol": "signature"})


if __name__ == "__main__":
    unittest.main()
