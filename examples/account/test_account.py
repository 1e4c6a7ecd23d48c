"""The account of several signers on a ledger for tests: what its signers authorise, and what is refused."""
import pathlib
import unittest

from soroban_files import envelopes, strkey, wallet
from soroban_files.values import u32, u64, vec
from soroban_files.world import WorldTest

EXAMPLES = pathlib.Path(__file__).resolve().parent.parent
NOT_RISING, NOT_A_SIGNER, TOO_FEW, BAD_THRESHOLD = 1, 2, 3, 4


def rising(accounts):
    """Returns the accounts in the order of the host."""
    return sorted(accounts, key=lambda account: strkey.decode(account.address, "G"))


class AccountTest(WorldTest):
    def setUp(self):
        super().setUp()
        self.needs_keys()
        self.signers = rising(self.world.accounts("anna", "bert", "cleo"))
        self.admin, self.shop = self.world.accounts("admin", "shop")
        self.token = self.world.deploy(EXAMPLES / "token" / "token.hex", self.admin)
        self.account = self.world.deploy(EXAMPLES / "account" / "account.hex", vec(*self.signers), u32(2))
        self.token.call("mint", self.account, u64(100), by=self.admin)

    def authorize(self, root, signers, named=None):
        """Returns the entries by which the account authorises a tree: its own, and one of each signer for `__check_auth`."""
        payloads = []

        def sign(payload):
            payloads.append(payload)
            return vec(*(named or signers))

        entry = self.world.authorize(self.account, root, sign=sign)
        agreed = self.account.node("__check_auth", payloads[0])
        return [entry] + [self.world.authorize(signer, agreed) for signer in signers]

    def pay(self, amount, signers, named=None):
        root = self.token.node("transfer", self.account, self.shop, u64(amount))
        entries = self.authorize(root, signers, named)
        return self.token.attempt("transfer", self.account, self.shop, u64(amount), auth=entries)

    def test_threshold(self):
        first, second, third = self.signers
        self.pay(30, [first, third]).expect("void").expect_event("transfer", self.account, self.shop, data=u64(30))
        self.pay(20, [first, second, third]).expect("void")
        self.pay(10, [second]).expect_failure()
        self.assertEqual(self.token.read("balance", self.account), 50)

    def test_refusals(self):
        first, second, _ = self.signers
        stranger = self.world.account("stranger")
        self.pay(10, rising([first, stranger])).expect_failure()
        self.pay(10, [second, first]).expect_failure()  # not rising
        self.pay(10, [first], named=[first, first]).expect_failure()  # one signer twice
        self.pay(10, [first], named=[first, second]).expect_failure()  # the second one has not signed
        self.assertEqual(self.token.read("balance", self.account), 100)

    def test_one_payload(self):
        """What signers agreed to for one payment holds for no other."""
        signers = self.signers[:2]
        root = self.token.node("transfer", self.account, self.shop, u64(10))
        agreed = self.authorize(root, signers)[1:]
        other = self.token.node("transfer", self.account, self.shop, u64(90))
        entry = self.world.authorize(self.account, other, sign=lambda payload: vec(*signers))
        self.token.attempt("transfer", self.account, self.shop, u64(90), auth=[entry, *agreed]).expect_failure()

    def count_verdicts(self, entries):
        """Returns how many signatures of the entries are good."""
        envelope = self.world.envelope(envelopes.call(self.token, "balance", [self.shop]), auth=entries)
        return len(wallet.verdicts([envelope], self.world.network))

    def test_flipped_bit(self):
        """A signature with a flipped bit gives no verdict, so the signer has not agreed."""
        signers = self.signers[:2]
        root = self.token.node("transfer", self.account, self.shop, u64(10))
        entries = self.authorize(root, signers)
        self.assertEqual(self.count_verdicts(entries), 2)
        member = entries[2]["credentials"]["address"]["signature"]["vec"][0]["map"][1]["val"]
        signature = bytearray.fromhex(member["bytes"])
        signature[17] ^= 4
        member["bytes"] = signature.hex()
        self.assertEqual(self.count_verdicts(entries), 1)
        self.token.attempt("transfer", self.account, self.shop, u64(10), auth=entries).expect_failure()

    def test_change(self):
        first, second, third = self.signers
        shop = self.shop
        approving, changed = vec(first, second), vec(*rising([first, shop]))
        both = {"by": first, "signers": [second]}
        self.account.attempt("change", approving, changed, u32(1), by=first).expect_failure()  # one has not agreed
        self.account.attempt("change", vec(first), changed, u32(1), by=first).expect_failure(error=TOO_FEW)
        self.account.attempt("change", approving, changed, u32(3), **both).expect_failure(error=BAD_THRESHOLD)
        self.account.call("change", approving, changed, u32(1), **both)
        self.assertEqual(self.account.read("threshold"), 1)
        self.pay(10, [shop]).expect("void")
        self.pay(10, [third]).expect_failure()

    def test_create_needs_all(self):
        code = self.world.upload(EXAMPLES / "token" / "token.hex")
        create = envelopes.create(code, self.account, bytes(32), [self.shop])
        root = envelopes.node(create)
        self.world.invoke(create, auth=self.authorize(root, self.signers[:2])).expect_failure()
        self.world.invoke(create, auth=self.authorize(root, self.signers)).succeeded()

    def test_constructor(self):
        wrong = ((self.signers, u32(0)), (self.signers, u32(4)), (self.signers, u64(1)), (self.signers[::-1], u32(1)))
        for signers, threshold in wrong:
            with self.assertRaises(AssertionError):
                self.world.deploy(EXAMPLES / "account" / "account.hex", vec(*signers), threshold)


if __name__ == "__main__":
    unittest.main()
