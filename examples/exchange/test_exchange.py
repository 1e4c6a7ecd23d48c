"""The exchange on a ledger for tests: deposits, swaps, withdrawals, and what is refused."""
import pathlib
import unittest

from soroban_files.values import u64
from soroban_files.world import WorldTest

EXAMPLES = pathlib.Path(__file__).resolve().parent.parent
NOT_ITS_TOKEN, TOO_LITTLE, TOO_MUCH, NO_SHARES, SAME_TOKEN = 1, 2, 3, 4, 5
GREATEST = 2**64 - 1


def bought(paid, reserve_in, reserve_out):
    """What a swap buys: the product of the reserves stays, and 0.3 % of the payment is no part of it."""
    after_fee = paid * 997 // 1000
    return reserve_out * after_fee // (reserve_in + after_fee)


class ExchangeTest(WorldTest):
    def setUp(self):
        super().setUp()
        self.admin, self.alice, self.bob = self.world.accounts("admin", "alice", "bob")
        self.tokens = [self.world.deploy(EXAMPLES / "token" / "token.hex", self.admin) for _ in range(2)]
        self.exchange = self.world.deploy(EXAMPLES / "exchange" / "exchange.hex", *self.tokens)

    def mint(self, side, to, amount):
        self.tokens[side].call("mint", to, u64(amount), by=self.admin)

    def balances(self, holder):
        return [token.read("balance", holder) for token in self.tokens]

    def deposit(self, who, first, second, taken=None):
        """Deposits at most these amounts. The authorisation has the transfers of what is taken."""
        amounts = taken or (first, second)
        pulls = [token.node("transfer", who, self.exchange, u64(amount)) for token, amount in zip(self.tokens, amounts)]
        return self.exchange.attempt("deposit", who, u64(first), u64(second), by=who, below=pulls)

    def swap(self, who, side, paid, least=1):
        pull = self.tokens[side].node("transfer", who, self.exchange, u64(paid))
        return self.exchange.attempt("swap", who, self.tokens[side], u64(paid), u64(least), by=who, below=[pull])

    def open_pool(self, first=1_000_000, second=4_000_000):
        for side, amount in enumerate((first, second)):
            self.mint(side, self.alice, amount)
        self.deposit(self.alice, first, second).expect(u64(first))

    def test_swap(self):
        self.open_pool()
        self.mint(0, self.bob, 10_000)
        out = bought(10_000, 1_000_000, 4_000_000)
        self.swap(self.bob, 0, 10_000, least=out + 1).expect_failure(error=TOO_LITTLE)
        done = self.swap(self.bob, 0, 10_000, least=out).expect(u64(out))
        done.expect_event("swap", self.bob, data=[u64(10_000), u64(out)])
        self.assertEqual(self.balances(self.bob), [0, out])
        self.assertEqual(self.exchange.read("pool"), [1_010_000, 4_000_000 - out, 1_000_000])
        self.assertEqual(self.balances(self.exchange), [1_010_000, 4_000_000 - out])
        back = bought(out, 4_000_000 - out, 1_010_000)
        self.swap(self.bob, 1, out).expect(u64(back))
        self.assertLess(back, 10_000)

    def test_product_never_falls(self):
        self.open_pool(1_000, 7_777)
        self.mint(0, self.bob, 5_000)
        product = 1_000 * 7_777
        for side, paid in ((0, 1), (0, 999), (1, 3), (0, 57), (1, 1_234)):
            self.swap(self.bob, side, paid)
            first, second, _ = self.exchange.read("pool")
            self.assertGreaterEqual(first * second, product)
            product = first * second

    def test_deposit_and_withdraw(self):
        self.open_pool()
        self.mint(0, self.bob, 500)
        self.mint(1, self.bob, 5_000)
        # 500 of the first token are worth 2,000 of the second one: more is not taken.
        self.deposit(self.bob, 500, 5_000, taken=(500, 2_000)).expect(u64(500))
        self.assertEqual((self.balances(self.bob), self.exchange.read("shares", self.bob)), ([0, 3_000], 500))
        self.exchange.attempt("withdraw", self.bob, u64(501), by=self.bob).expect_failure(error=NO_SHARES)
        # alice has not authorised it.
        self.exchange.attempt("withdraw", self.alice, u64(1), by=self.bob).expect_failure()
        self.exchange.call("withdraw", self.bob, u64(500), by=self.bob)
        self.assertEqual((self.balances(self.bob), self.exchange.read("shares", self.bob)), ([500, 5_000], 0))
        self.exchange.call("withdraw", self.alice, u64(1_000_000), by=self.alice)
        self.assertEqual(self.exchange.read("pool"), [0, 0, 0])

    def test_large_amounts(self):
        half = GREATEST // 2
        self.open_pool(half, half)
        self.mint(0, self.bob, half)
        out = bought(half, half, half)
        self.swap(self.bob, 0, half).expect(u64(out))
        self.assertEqual(self.exchange.read("pool"), [2 * half, half - out, half])
        self.mint(1, self.bob, half)
        self.deposit(self.bob, 3, half).expect_failure(error=TOO_MUCH)  # the first reserve would pass 2^64 - 1

    def test_refusals(self):
        self.open_pool()
        stranger = self.world.deploy(EXAMPLES / "token" / "token.hex", self.admin)
        self.exchange.attempt("swap", self.bob, stranger, u64(1), u64(1), by=self.bob).expect_failure(
            error=NOT_ITS_TOKEN
        )
        self.exchange.attempt("swap_sent", self.bob, self.tokens[0], u64(0)).expect_failure(
            error=TOO_LITTLE
        )  # nothing was sent
        create = (EXAMPLES / "exchange" / "exchange.hex", self.tokens[0], self.tokens[0])
        with self.assertRaises(AssertionError):
            self.world.deploy(*create)


if __name__ == "__main__":
    unittest.main()
