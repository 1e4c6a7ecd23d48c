"""The escrow on a ledger for tests: paid in, released, refunded, and refused."""
import pathlib
import unittest

from soroban_files.values import timepoint, u32, u64
from soroban_files.world import WorldTest

EXAMPLES = pathlib.Path(__file__).resolve().parent.parent
NOT_A_PARTY, WRONG_STATE, TOO_EARLY = 1, 2, 3
OPEN, FUNDED, CLOSED = 0, 1, 2
DAY = 86_400
LIFE = 518_400


class EscrowTest(WorldTest):
    def setUp(self):
        super().setUp()
        self.buyer, self.seller, self.arbiter = self.world.accounts("buyer", "seller", "arbiter")
        self.stranger = self.world.account("stranger")
        admin = self.world.account("admin")
        self.token = self.world.deploy(EXAMPLES / "token" / "token.hex", admin)
        self.token.call("mint", self.buyer, u64(1000), by=admin)
        self.escrow = self.deploy(u64(600), timepoint(self.world.now + DAY))

    def deploy(self, amount, deadline):
        terms = (self.buyer, self.seller, self.arbiter, self.token, amount, deadline)
        return self.world.deploy(EXAMPLES / "escrow" / "escrow.hex", *terms)

    def fund(self):
        """The buyer pays: the authorisation of `fund` has the transfer below it."""
        transfer = self.token.node("transfer", self.buyer, self.escrow, u64(600))
        return self.escrow.call("fund", by=self.buyer, below=[transfer])

    def balances(self):
        return [self.token.read("balance", holder) for holder in (self.buyer, self.escrow, self.seller)]

    def test_release(self):
        self.assertEqual(self.escrow.read("state"), OPEN)
        self.fund().expect_event("fund", data=u64(600), contract=self.escrow)
        self.assertEqual(self.escrow.live_until(), self.world.seq + LIFE)
        self.assertEqual((self.escrow.read("state"), self.balances()), (FUNDED, [400, 600, 0]))
        self.escrow.call("release", self.buyer, by=self.buyer).expect_event("release", data=u64(600))
        self.assertEqual((self.escrow.read("state"), self.balances()), (CLOSED, [400, 0, 600]))

    def test_arbiter(self):
        self.fund()
        self.escrow.call("refund", self.arbiter, by=self.arbiter)
        self.assertEqual(self.balances(), [1000, 0, 0])
        self.escrow.attempt("release", self.arbiter, by=self.arbiter).expect_failure(error=WRONG_STATE)

    def test_parties(self):
        self.fund()
        for function in ("release", "refund"):
            self.escrow.attempt(function, self.stranger, by=self.stranger).expect_failure(error=NOT_A_PARTY)
            # The arbiter has not authorised it.
            self.escrow.attempt(function, self.arbiter, by=self.stranger).expect_failure()
        self.escrow.attempt("release", self.seller, by=self.seller).expect_failure(error=NOT_A_PARTY)
        self.escrow.call("refund", self.seller, by=self.seller)
        self.assertEqual(self.balances(), [1000, 0, 0])

    def test_deadline(self):
        self.fund()
        self.escrow.attempt("refund", self.buyer, by=self.buyer).expect_failure(error=TOO_EARLY)
        self.world.travel(ledgers=100, seconds=DAY)
        self.escrow.call("refund", self.buyer, by=self.buyer)
        self.assertEqual(self.balances(), [1000, 0, 0])

    def test_payment(self):
        self.escrow.attempt("release", self.buyer, by=self.buyer).expect_failure(error=WRONG_STATE)
        self.escrow.attempt("fund", by=self.buyer).expect_failure()  # the transfer is not authorised
        self.fund()
        again = self.token.node("transfer", self.buyer, self.escrow, u64(600))
        self.escrow.attempt("fund", by=self.buyer, below=[again]).expect_failure(error=WRONG_STATE)
        self.assertEqual(self.balances(), [400, 600, 0])

    def test_terms(self):
        for terms in ((u32(600), timepoint(0)), (u64(600), u64(0))):
            with self.assertRaises(AssertionError):
                self.deploy(*terms)


if __name__ == "__main__":
    unittest.main()
