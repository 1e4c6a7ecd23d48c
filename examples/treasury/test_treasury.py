"""The treasury, a contract in Rust, on a ledger for tests: it pays, splits, and swaps on the exchange."""
import pathlib
import unittest

from soroban_files.values import u32, u64, vec
from soroban_files.world import WorldTest

EXAMPLES = pathlib.Path(__file__).resolve().parent.parent
BAD_SHARES = 1
GREATEST = 2**64 - 1


class TreasuryTest(WorldTest):
    def setUp(self):
        super().setUp()
        self.owner, self.admin, self.alice, self.bob = self.world.accounts("owner", "admin", "alice", "bob")
        self.token = self.world.deploy(EXAMPLES / "token" / "token.hex", self.admin)
        self.treasury = self.world.deploy(EXAMPLES / "treasury" / "treasury.hex", self.owner)
        self.assertEqual(self.treasury.read("owner"), self.owner.address)

    def mint(self, amount):
        self.token.call("mint", self.treasury, u64(amount), by=self.admin)

    def balances(self, *holders):
        return [self.token.read("balance", holder) for holder in holders]

    def test_pay(self):
        self.mint(100)
        self.treasury.attempt("pay", self.token, self.alice, u64(70), by=self.alice).expect_failure()
        self.treasury.call("pay", self.token, self.alice, u64(70), by=self.owner)
        self.assertEqual(self.balances(self.alice, self.treasury), [70, 30])

    def split(self, amount, shares):
        receivers = [self.alice, self.bob, self.admin][: len(shares)]
        return self.treasury.attempt(
            "split", self.token, u64(amount), vec(*receivers), vec(*map(u32, shares)), by=self.owner
        )

    def test_split(self):
        self.mint(1000)
        self.split(1000, [1, 2, 3]).expect("void")
        self.assertEqual(self.balances(self.alice, self.bob, self.admin, self.treasury), [166, 333, 500, 1])
        self.split(1, [0, 0]).expect_failure(error=BAD_SHARES)
        self.split(1, []).expect_failure(error=BAD_SHARES)
        wrong = ("split", self.token, u64(1), vec(self.alice), vec(u64(1)))
        self.treasury.attempt(*wrong, by=self.owner).expect_failure(error=BAD_SHARES)  # a share is a U32

    def test_wide_products(self):
        self.mint(GREATEST)
        self.split(GREATEST, [2**32 - 1, 2**32 - 2]).expect("void")
        all_shares = 2**33 - 3
        parts = [GREATEST * share // all_shares for share in (2**32 - 1, 2**32 - 2)]
        self.assertEqual(self.balances(self.alice, self.bob), parts)

    def test_swap(self):
        other = self.world.deploy(EXAMPLES / "token" / "token.hex", self.admin)
        exchange = self.world.deploy(EXAMPLES / "exchange" / "exchange.hex", self.token, other)
        pulls = []
        for token in (self.token, other):
            token.call("mint", self.alice, u64(1_000_000), by=self.admin)
            pulls.append(token.node("transfer", self.alice, exchange, u64(1_000_000)))
        exchange.call("deposit", self.alice, u64(1_000_000), u64(1_000_000), by=self.alice, below=pulls)
        self.mint(1000)
        out = 1_000_000 * 997 // (1_000_000 + 997)
        self.treasury.call("swap", exchange, self.token, u64(1000), u64(out), by=self.owner).expect(u64(out))
        self.assertEqual((self.balances(self.treasury), other.read("balance", self.treasury)), ([0], out))


if __name__ == "__main__":
    unittest.main()
