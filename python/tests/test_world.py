"""A world over the built program: the token of examples/, deployed, called, refused, and moved in time."""
from __future__ import annotations

import os

from soroban_files import envelopes, schema, strkey, values, wallet
from soroban_files.program import Refused, can_tell_why, why_path
from soroban_files.values import error, symbol, u64, vec
from soroban_files.world import Contract, Failed, WorldTest
from tests.tables import REPOSITORY

TOKEN = os.path.join(REPOSITORY, "examples", "token", "token.hex")
MARKET = os.path.join(os.path.dirname(os.path.abspath(__file__)), "market.hex")
NOT_ENOUGH = 1


class TokenTest(WorldTest):
    """What authors of contracts do with a world."""

    token: Contract

    def setUp(self) -> None:
        super().setUp()
        self.admin, self.alice, self.bob = self.world.accounts("admin", "alice", "bob")
        self.token = self.world.deploy(TOKEN, self.admin)
        self.token.call("mint", self.alice, u64(100), by=self.admin)

    def balance_key(self, holder: object) -> object:
        return vec(symbol("balance"), holder)

    def test_values_and_events(self) -> None:
        done = self.token.call("transfer", self.alice, self.bob, u64(25), by=self.alice)
        done.expect("void").expect_event("transfer", self.alice, self.bob, data=u64(25), contract=self.token)
        self.assertEqual((self.token.read("balance", self.alice), self.token.read("balance", self.bob)), (75, 25))
        self.assertEqual(self.token.stored(self.balance_key(self.bob)), u64(25))
        self.assertEqual(
            self.token.instance()["storage"], [{"key": symbol("admin"), "val": {"address": self.admin.address}}]
        )
        self.assertGreater(done.instructions or 0, 1000)
        with self.assertRaises(AssertionError):
            done.expect_event("transfer", self.bob)
        with self.assertRaises(AssertionError):
            done.expect(u64(25))

    def test_failures(self) -> None:
        seq = self.world.seq
        poor = self.token.attempt("transfer", self.bob, self.alice, u64(1), by=self.bob)
        poor.expect_failure(error=NOT_ENOUGH)
        self.assertEqual(poor.error, error(NOT_ENOUGH))
        self.token.attempt("mint", self.bob, u64(1), by=self.bob).expect_failure()
        with self.assertRaises(Failed) as caught:
            self.token.call("transfer", self.alice, self.bob, u64(101), by=self.alice)
        self.assertEqual(caught.exception.outcome.code, "trapped")
        self.assertEqual(self.world.seq, seq)

    def test_why(self) -> None:
        if not can_tell_why():
            self.skipTest(f"there is no program at {why_path()}")
        with self.assertRaises(Failed) as caught:
            self.token.call("transfer", self.alice, self.bob, u64(101), by=self.alice)
        self.assertIn(f"\n  fail CONTRACT {NOT_ENOUGH}, ", str(caught.exception))
        self.assertTrue(caught.exception.outcome.why.endswith("\nresult -1 -2\n"))
        envelope = envelopes.xdr(self.world.envelope(envelopes.call(self.token, "balance", [self.bob])))
        files = (envelope, self.world.file, self.world.verdicts([]), self.world.now + 5)
        self.assertEqual(self.world.program.trace(*files)["calls"][0]["end"], {"return": "u64:0"})
        undeclared = self.world.program.trace(*files, is_declared=True)["calls"][0]
        self.assertEqual((undeclared["ran"], list(undeclared["end"]["fail"])), (False, ["undeclared"]))

    def test_signed_entries(self) -> None:
        self.needs_keys()
        self.token.call("transfer", self.alice, self.bob, u64(7), signers=[self.alice]).expect_event(
            "transfer", self.alice, self.bob, data=u64(7)
        )
        root = self.token.node("transfer", self.alice, self.bob, u64(7))
        entry = self.world.authorize(self.alice, root, nonce=5)
        self.token.call("transfer", self.alice, self.bob, u64(7), auth=[entry])
        self.token.attempt("transfer", self.alice, self.bob, u64(7), auth=[entry]).expect_failure()  # its nonce is used
        other = wallet.Key.named("bob")
        forged = self.world.authorize(self.alice, root, sign=lambda payload: other.account_signature(payload.hex()))
        self.token.attempt("transfer", self.alice, self.bob, u64(7), auth=[forged]).expect_failure()
        self.assertEqual(self.token.read("balance", self.bob), 14)

    def test_recorded(self) -> None:
        """The program finds who has to sign a trade, also where another account is the source."""
        self.needs_keys()
        (carol,) = self.world.accounts("carol")
        silver, market = self.world.deploy(TOKEN, self.admin), self.world.deploy(MARKET)
        silver.call("mint", self.bob, u64(50), by=self.admin, is_recorded=True)
        trade = [self.bob, self.alice, self.token, u64(5), silver, u64(7)]
        market.attempt("buy", *trade, by=carol).expect_failure()
        done = market.call("buy", *trade, by=carol, is_recorded=True)
        self.assertTrue(done.ok)
        with self.assertRaises(KeyError):
            stranger = values.value({"address": strkey.encode("G", bytes(32))})
            self.token.call("transfer", stranger, self.bob, u64(0), is_recorded=True)

    def test_list(self) -> None:
        """Envelopes without footprints, in their order: the second one needs what the first one did."""
        calls = [
            envelopes.call(self.token, "transfer", args)
            for args in ([self.alice, self.bob, u64(60)], [self.bob, self.alice, u64(1)], [self.alice, self.bob, u64(60)])
        ]
        by = (self.alice, self.bob, self.alice)
        sent = [self.world.envelope(call, by=who) for call, who in zip(calls, by)]
        outcomes = self.world.close_list(sent, workers=2)
        self.assertEqual([outcome.code for outcome in outcomes], ["success", "success", "trapped"])
        self.assertEqual(self.token.read("balance", self.alice), 41)

    def test_build_and_play(self) -> None:
        """A set that is built of a list has each envelope, and its log leads to the next ledger and back."""
        calls = [envelopes.call(self.token, "transfer", [self.alice, it, u64(1)]) for it in (self.bob, self.admin)]
        sent = [self.world.prepare(call, by=self.alice) for call in calls]
        built = schema.read(schema.SET, self.world.program.build(schema.write(schema.LIST, sent), 8))
        self.assertEqual(envelopes.stages_of(built), [[sent]])
        self.world.close([[sent]])
        closed = self.world.closed
        assert closed and closed.log
        program = self.world.program
        self.assertEqual(program.play(closed.log, closed.before), closed.after)
        self.assertEqual(program.play(closed.log, closed.after, back=True), closed.before)
        with self.assertRaises(Refused) as caught:
            program.play(closed.log, closed.after)
        self.assertEqual(caught.exception.code, 8)

    def test_time(self) -> None:
        key = envelopes.contract_key(self.token, self.balance_key(self.alice))
        until = self.world.live_until(key)
        self.assertTrue(self.world.extend([key], 6000).ok)
        self.assertEqual(self.world.live_until(key), self.world.seq + 6000)
        self.world.travel(ledgers=until - self.world.seq, seconds=60)
        self.token.attempt("balance", self.alice).expect_failure("entry_archived")

    def test_stages(self) -> None:
        carol, dave = self.world.accounts("carol", "dave")
        self.token.call("mint", carol, u64(10), by=self.admin)
        first = self.world.prepare(
            envelopes.call(self.token, "transfer", [self.alice, self.bob, u64(1)]), by=self.alice
        )
        other = self.world.prepare(envelopes.call(self.token, "transfer", [carol, dave, u64(2)]), by=carol)
        again = self.world.prepare(envelopes.call(self.token, "transfer", [self.alice, dave, u64(3)]), by=self.alice)
        outcomes = self.world.close([[[first], [other]], [[again]]], workers=2)
        self.assertEqual([outcome.code for outcome in outcomes], ["success"] * 3)
        self.assertEqual(self.token.read("balance", dave), 5)
        with self.assertRaises(Refused):
            self.world.close([[[first], [again]]])  # both write the balance of alice
