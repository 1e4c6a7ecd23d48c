"""A ledger for tests of contracts, over the built program.

    from soroban_files.values import u64
    from soroban_files.world import WorldTest

    class TokenTest(WorldTest):
        def test_transfer(self):
            admin, alice, bob = self.world.accounts("admin", "alice", "bob")
            token = self.world.deploy("token.wasm", admin)            # uploads the module, creates a contract
            token.call("mint", alice, u64(100), by=admin)             # closes a ledger; fails the test if the call fails
            done = token.call("transfer", alice, bob, u64(25), by=alice)
            done.expect_event("transfer", alice, bob, data=u64(25))
            self.assertEqual(token.read("balance", bob), 25)          # simulates only
            token.attempt("transfer", bob, alice, u64(1), by=alice).expect_failure()
            self.world.travel(ledgers=5000)                           # to see what archives

Arguments are values (`soroban_files.values`), or what `values.value` takes: accounts and contracts for their addresses, None,
booleans, bytes, lists. `by` is the source account of the transaction, and authorises the call. `signers` sign entries of their
own for it. `below` has the nodes that the authorisation needs below the call: `token.node("transfer", alice, exchange, u64(5))`.
With `is_recorded=True` the program finds who has to sign what, and each account of the world does. `auth` gives all entries by
hand: see `World.authorize`, which also lets a contract sign in its own way.

Each call is simulated, gets the footprint that was found, and is applied alone in the next ledger. `World.prepare` and
`World.close` make sets of several transactions, stages and clusters. Signatures of accounts are real: they are verified into
the verdicts. They need the package `cryptography`; without it, accounts have made-up keys that cannot sign.
"""
from __future__ import annotations

import hashlib
import unittest
from typing import Any, Callable, Dict, List, NamedTuple, Optional, Sequence, Tuple

from . import asking, envelopes, hashes, results, schema, strkey, values, wallet
from . import ledgers as ledger_files
from .program import Program, Simulated, can_tell_why, is_there, path_of
from .results import Event
from .xdr import Json

# What each kind of work costs: instructions (constant, linear), memory (constant, linear).
TERMS = {
    "wasm_insn_exec": (4, 0, 0, 0),
    "mem_alloc": (434, 16, 16, 128),
    "mem_cpy": (42, 16, 0, 0),
    "mem_cmp": (44, 16, 0, 0),
    "dispatch_host_function": (310, 0, 0, 0),
    "visit_object": (61, 0, 0, 0),
    "val_ser": (230, 29, 242, 384),
    "val_deser": (59052, 4001, 0, 384),
    "compute_sha256_hash": (3738, 7012, 0, 0),
    "vm_instantiation": (451626, 45405, 130065, 5064),
    "invoke_vm_function": (1948, 0, 14, 0),
}
NETWORK = "A network for tests of contracts"
SECONDS_A_LEDGER = 5
LIFE = 100  # for how many ledgers signatures hold


class Failed(AssertionError):
    """A transaction failed that had to succeed. `outcome` says how."""

    def __init__(self, outcome: "Outcome") -> None:
        super().__init__("\n".join([outcome.line, outcome.why]).strip())
        self.outcome = outcome


class Account:
    """An account: its name, its address, and its key if `cryptography` is there."""

    def __init__(self, name: str) -> None:
        self.name = name
        self.key = wallet.Key.named(name) if wallet.has_cryptography() else None
        self.address = self.key.address if self.key else strkey.encode("G", hashlib.sha256(name.encode()).digest())

    def __repr__(self) -> str:
        return self.name


class Contract:
    """A contract of a world."""

    def __init__(self, world: "World", address: str) -> None:
        self.world, self.address = world, address

    def __repr__(self) -> str:
        return strkey.short(self.address)

    def call(self, function: str, *args: Any, **how: Any) -> "Outcome":
        """Calls a function in the next ledger. Raises `Failed` if the call fails."""
        return self.attempt(function, *args, **how).succeeded()

    def attempt(self, function: str, *args: Any, **how: Any) -> "Outcome":
        """Calls a function in the next ledger, and returns the outcome also of a failure."""
        return self.world.invoke(envelopes.call(self, function, args), **how)

    def simulate(self, function: str, *args: Any, **how: Any) -> "Outcome":
        """Simulates a call; the ledger stays."""
        return self.world.simulate(envelopes.call(self, function, args), **how)

    def read(self, function: str, *args: Any, **how: Any) -> Any:
        """Returns what a function returns, as Python has it; the ledger stays. Raises `Failed` if the call fails."""
        return self.simulate(function, *args, **how).succeeded().plain

    def node(self, function: str, *args: Any, below: Sequence[Json] = ()) -> Json:
        """Returns the node of an authorisation tree for a call of a function."""
        return envelopes.node(envelopes.call(self, function, args), below)

    def stored(self, key: Any, durability: str = "persistent") -> Optional[Json]:
        """Returns the value at a key of this contract's own entries, or None."""
        record = self.world.record(envelopes.contract_key(self, values.value(key), durability))
        return record["entry"]["data"]["contract_data"]["val"] if record else None

    def instance(self) -> Json:
        """Returns the instance: its executable and its storage."""
        value = self.stored("ledger_key_contract_instance")
        if value is None:
            raise KeyError(f"there is no contract at {self.address}")
        return value["contract_instance"]

    def live_until(self) -> int:
        """Returns the last ledger in which the instance is live."""
        return self.world.live_until(envelopes.instance_key(self))


class Outcome:
    """What became of a transaction.

    `code` is `success`, or `trapped`, `resource_limit_exceeded`, `entry_archived`, `malformed`, `tx_too_late` and so on. `value` is
    what the call returned, `plain` the same as Python has it. `instructions` and `memory` are the sums of the simulated run.
    """

    def __init__(
        self,
        result: Json,
        success: Optional[Json],
        simulated: Optional[Simulated] = None,
        ask: Optional[Callable[[], Optional[Json]]] = None,
        tell: Optional[Callable[[], str]] = None,
    ) -> None:
        self.result, self.success, self.simulated, self.ask, self.tell = result, success, simulated, ask, tell
        self.code = results.word(result)
        self.ok = self.code == "success"
        self.value: Optional[Json] = success["return_value"] if success else None
        self.events: List[Event] = results.events(success)
        self.instructions = simulated.instructions if simulated else None
        self.memory = simulated.memory if simulated else None

    @property
    def plain(self) -> Any:
        """What the call returned, as Python has it."""
        return None if self.value is None else values.plain(self.value)

    @property
    def error(self) -> Optional[Json]:
        """The error by which a call trapped, as a value, if it can be found: `error(3)` for an error 3 of a contract's own.

        A result does not say it. So the call is made again by a contract that catches it, on the ledger as it was. What is no
        contract's own error comes as `{"error": {"context": "invalid_action"}}`.
        """
        return self.ask() if self.ask and self.code == "trapped" else None

    @property
    def why(self) -> str:
        """What the transaction did on the ledger as it was, with the footprint that it needs: the lines of soroban_why.

        The empty text if soroban_why is not there.
        """
        return self.tell() if self.tell else ""

    @property
    def line(self) -> str:
        """The outcome on one line."""
        if self.ok:
            return f"success: {values.line(self.value)}" if self.value is not None else "success"
        return self.code + (f": {values.line(self.error)}" if self.error else "")

    def succeeded(self) -> "Outcome":
        """Returns itself, or raises `Failed`."""
        if not self.ok:
            raise Failed(self)
        return self

    def expect(self, value: Any) -> "Outcome":
        """Asserts that the call returned this value."""
        wanted = values.value(value)
        if self.value != wanted:
            raise AssertionError(f"expected {values.line(wanted)}, and this came: {self.line}")
        return self

    def expect_event(self, *topics: Any, data: Any = None, contract: Any = None) -> "Outcome":
        """Asserts that there is an event with these topics; also with this data and of this contract, if given.

        A text as topic means a symbol.
        """
        wanted = [values.symbol(topic) if isinstance(topic, str) else values.value(topic) for topic in topics]
        for event in self.events:
            right_data = data is None or event.data == values.value(data)
            right_contract = contract is None or event.contract == envelopes.strkey_of(contract)
            if event.topics == wanted and right_data and right_contract:
                return self
        came = "; ".join(event.line for event in self.events) or "none"
        raise AssertionError(f"no event [{', '.join(map(values.line, wanted))}] of these: {came}")

    def expect_failure(self, code: str = "trapped", error: Any = None) -> "Outcome":
        """Asserts that the transaction ended with this code.

        With `error`, it also has to be by this error; a number means one of a contract's own.
        """
        wanted = values.error(error) if isinstance(error, int) else error
        if self.code != code or (wanted is not None and self.error != wanted):
            expected = code if wanted is None else f"{code}: {values.line(wanted)}"
            raise AssertionError(f"expected {expected}, and this came: {self.line}")
        return self


class Closed(NamedTuple):
    """The files of the ledger that was closed last, as `explore` takes them."""

    before: bytes
    tx_set: bytes
    verdicts: bytes
    report: bytes
    after: bytes
    log: Optional[bytes] = None


class World:
    """A ledger, and the accounts and contracts on it. `file` is the ledger's file, `network` the network's id in hex digits."""

    def __init__(
        self, program: Optional[str] = None, seq: int = 1000, close_time: int = 1_750_000_000, margin: int = 20
    ) -> None:
        self.program = Program(program)
        self.network = hashes.network_id(NETWORK)
        self.margin = margin
        self.file = schema.write(schema.LEDGER, new_ledger(self.network, seq, close_time))
        self.cached: Optional[Tuple[bytes, Json]] = None
        self.closed: Optional[Closed] = None
        self.somebody = Account("somebody")
        self.names: Dict[str, str] = {self.somebody.address: "somebody"}  # what `page` calls addresses
        self.sequences: Dict[str, int] = {}
        self.nonces = 0

    # ---- The ledger

    @property
    def ledger(self) -> Json:
        """The ledger as JSON; assign one to change it."""
        return schema.read(schema.LEDGER, self.file)

    @ledger.setter
    def ledger(self, ledger: Json) -> None:
        fields = ledger_files.body(ledger)
        ledger = {next(iter(ledger)): {**fields, "records": ledger_files.sorted_records(fields["records"])}}
        ledger_files.check(ledger, follows=True)
        self.file = schema.write(schema.LEDGER, ledger)

    @property
    def seq(self) -> int:
        """The number of the last closed ledger."""
        return int(self.fields["seq"])

    @property
    def now(self) -> int:
        """The close time of the last closed ledger."""
        return int(self.fields["close_time"])

    @property
    def fields(self) -> Json:
        """The fields of the ledger, which is decoded once; to be read only."""
        if self.cached is None or self.cached[0] is not self.file:
            self.cached = self.file, ledger_files.body(self.ledger)
        return self.cached[1]

    def travel(self, ledgers: int = 0, seconds: Optional[int] = None) -> None:
        """Moves the ledger on by a number of ledgers, and by `seconds`, by default 5 for each ledger. No ledger is closed."""
        ((version, fields),) = self.ledger.items()
        later = int(fields["close_time"]) + (SECONDS_A_LEDGER * ledgers if seconds is None else seconds)
        self.ledger = {version: {**fields, "seq": fields["seq"] + ledgers, "close_time": str(later)}}

    def record(self, key: Json) -> Optional[Json]:
        """Returns the record at a ledger key, also of an entry that is not live any more, or None."""
        return ledger_files.entries({"v2": self.fields}).get(schema.write(schema.KEY, key))

    def live_until(self, key: Json) -> int:
        """Returns the last ledger in which the entry at a key is live."""
        record = self.record(key)
        if record is None:
            raise KeyError("there is no such entry")
        return int(record["ttl"]["live_until_ledger_seq"])

    # ---- Accounts and contracts

    def account(self, name: str) -> Account:
        """Returns the account with a name. Its key is made of the name."""
        found = Account(name)
        self.names[found.address] = name
        return found

    def accounts(self, *names: str) -> List[Account]:
        """Returns an account for each name."""
        return [self.account(name) for name in names]

    def contract(self, address: str) -> Contract:
        """Returns the contract at an address."""
        return Contract(self, address)

    def upload(self, module: Any, by: Optional[Account] = None) -> str:
        """Uploads a module, unless it is there and live; returns the hash of the code. A module is bytes, or a file's path."""
        content = module_bytes(module)
        code = hashlib.sha256(content).hexdigest()
        record = self.record(envelopes.code_key(code))
        if record is None or record["ttl"]["live_until_ledger_seq"] <= self.seq:
            said = self.program.vet(content)
            if not said.startswith("valid"):
                raise AssertionError(f"vet says of the module: {said}. `soroban-files lint` says more.")
            self.invoke(envelopes.upload(content), by=by).succeeded()
        return code

    def deploy(
        self, module: Any, *args: Any, by: Optional[Account] = None, salt: Any = None, name: str = "", **how: Any
    ) -> Contract:
        """Uploads a module if needed, creates a contract of it, and returns the contract.

        `args` are those of the constructor. `by` is the deployer, who authorises the create. `salt` is bytes or a text, and by
        default another one for each contract. `name` is what `page` calls the contract. Raises `Failed` if the create fails.
        """
        deployer = by or self.somebody
        if salt is None:
            salt = f"contract {len(self.fields['records'])} of ledger {self.seq}"
        salt = envelopes.salt_of(salt) if isinstance(salt, str) else salt
        create = envelopes.create(self.upload(module, by=by), deployer, salt, args)
        made = Contract(self, self.invoke(create, by=deployer, **how).succeeded().plain)
        if name:
            self.names[made.address] = name
        return made

    def address_of(self, deployer: Any, salt: Any) -> str:
        """Returns the address that `deploy` gives a contract of this deployer and salt."""
        salt = envelopes.salt_of(salt) if isinstance(salt, str) else salt
        return hashes.contract_id(self.network, envelopes.preimage(deployer, salt))

    # ---- Authorisation

    def authorize(
        self,
        who: Any,
        root: Json,
        sign: Optional[Callable[[bytes], Json]] = None,
        life: int = LIFE,
        nonce: Optional[int] = None,
    ) -> Json:
        """Returns the entry by which an address authorises a tree, signed.

        An account signs with its key. With `sign`, the signature is the value that it returns for the payload's hash of 32
        bytes; a contract judges it in `__check_auth`. The entry holds for `life` ledgers.
        """
        self.nonces += 1
        entry = envelopes.address_entry(who, root, nonce if nonce is not None else 7919 * self.nonces, self.seq + life)
        if sign is not None:
            payload = bytes.fromhex(hashes.payload_hash(self.network, entry))
            entry["credentials"]["address"]["signature"] = values.value(sign(payload))
            return entry
        if getattr(who, "key", None) is None:
            raise wallet.NoCryptography(f"{who!r} has no key to sign with")
        return wallet.sign_entry(entry, self.network, who.key)

    def entries(
        self, host_function: Json, by: Optional[Account], signers: Sequence[Any], below: Sequence[Json]
    ) -> List[Json]:
        """Returns the entries by which the source and the signers authorise a call or a create, with all below it."""
        if "upload_contract_wasm" in host_function:
            return []
        root = envelopes.node(host_function, below)
        return [envelopes.source_entry(root)] * (by is not None) + [self.authorize(signer, root) for signer in signers]

    # ---- Transactions

    def envelope(
        self,
        host_function: Json,
        by: Optional[Account] = None,
        signers: Sequence[Any] = (),
        below: Sequence[Json] = (),
        auth: Optional[Sequence[Json]] = None,
        is_recorded: bool = False,
        **options: Any,
    ) -> Json:
        """Returns an envelope without a footprint, unsigned. `options` are those of `envelopes.envelope`, such as `cond`.

        With `is_recorded`, its entries are those that the run needs, each signed by its account.
        """
        source = by or self.somebody
        self.sequences[source.address] = self.sequences.get(source.address, 0) + 1
        if is_recorded:
            auth = self.recorded(host_function, source)
        entries = self.entries(host_function, by, signers, below) if auth is None else auth
        return envelopes.envelope(
            source, envelopes.invoke(host_function, entries), self.sequences[source.address], **options
        )

    def recorded(self, host_function: Json, source: Account) -> List[Json]:
        """Returns the entries that a call or a create from a source needs, each signed by its account (`record`)."""
        envelope = envelopes.xdr(envelopes.envelope(source, envelopes.invoke(host_function)))
        nonce, until = 7919 * (self.nonces + 1), self.seq + LIFE
        found = self.program.record(envelope, self.file, self.now + SECONDS_A_LEDGER, nonce, until)
        self.nonces += 1
        return [self.signed_entry(entry) for entry in found.entries]

    def signed_entry(self, entry: Json) -> Json:
        """Returns an authorisation entry signed by its account, which has to be one of this world; that of a source as it is."""
        if entry["credentials"] == "source_account":
            return entry
        address = entry["credentials"]["address"]["address"]
        if address not in self.names:
            raise KeyError(f"{address} is demanded, and is no account of this world")
        key = Account(self.names[address]).key
        if key is None:
            raise wallet.NoCryptography(f"{self.names[address]} has no key to sign with")
        return wallet.sign_entry(entry, self.network, key)

    def simulated(self, envelope: Json) -> Simulated:
        """Returns what `simulate` finds of an envelope."""
        return self.program.simulate(
            envelopes.xdr(envelope), self.file, self.verdicts([envelope]), self.now + SECONDS_A_LEDGER
        )

    def simulate(self, host_function: Json, **how: Any) -> Outcome:
        """Simulates a host function; the ledger stays. `how` is that of `envelope`."""
        envelope = self.envelope(host_function, **how)
        found = self.simulated(envelope)
        return Outcome(found.result, found.success, found, self.asker(envelope), self.teller(envelope))

    def prepare(self, host_function: Json, **how: Any) -> Json:
        """Returns the envelope of a host function with its footprint and its limits, signed by its source, for `close`."""
        envelope = self.envelope(host_function, **how)
        verdicts = schema.read(schema.VERDICTS, self.verdicts([envelope]))
        filled, _ = wallet.filled(
            self.program, envelope, self.ledger, verdicts, self.now + SECONDS_A_LEDGER, self.margin
        )
        return self.signed(filled, how.get("by"))

    def signed(self, envelope: Json, by: Optional[Account]) -> Json:
        """Returns an envelope signed by its source, if that can sign."""
        key = (by or self.somebody).key
        return wallet.sign(envelope, self.network, key) if key else envelope

    def invoke(self, host_function: Json, **how: Any) -> Outcome:
        """Simulates a host function, and applies it alone in the next ledger if the simulation succeeds.

        `how` is that of `envelope`. If the simulation fails, its outcome is returned, and no ledger is closed.
        """
        envelope = self.envelope(host_function, **how)
        found = self.simulated(envelope)
        outcome = Outcome(found.result, found.success, found, self.asker(envelope), self.teller(envelope))
        if not outcome.ok:
            return outcome
        # The limits of this run are known: it is alone on the same ledger. `prepare` measures them for sets of several.
        limits = wallet.Limits(*[envelopes.MOST_U32] * 3)
        sent = self.signed(wallet.with_footprint(envelope, found.soroban_data, limits), how.get("by"))
        (applied,) = self.close([[[sent]]])
        applied.simulated, applied.instructions, applied.memory = found, found.instructions, found.memory
        return applied

    def extend(self, keys: Sequence[Json], ledgers: int) -> Outcome:
        """Extends the entries at these keys, to live for so many ledgers from the next one on."""
        body = envelopes.extend(ledgers)
        (outcome,) = self.close(
            [[[envelopes.envelope(self.somebody, body, data=envelopes.soroban_data(read_only=keys))]]]
        )
        return outcome

    def close(
        self, stages: Sequence[Sequence[Sequence[Json]]], seconds: int = SECONDS_A_LEDGER, workers: int = 1
    ) -> List[Outcome]:
        """Applies stages of clusters of envelopes, and makes the next ledger; returns the outcomes in the set's order.

        Raises `Refused` if two clusters of a stage conflict.
        """
        tx_set = schema.write(schema.SET, envelopes.parallel_set(stages))
        sent = [envelope for stage in stages for cluster in stage for envelope in cluster]
        verdicts = self.verdicts(sent)
        applied = self.program.apply(tx_set, self.file, verdicts, self.now + seconds, workers, is_logged=True)
        self.closed = Closed(self.file, tx_set, verdicts, applied.report_file, applied.ledger_file, applied.log_file)
        return self.closed_with(sent, applied.report, applied.ledger_file)

    def close_list(self, sent: Sequence[Json], seconds: int = SECONDS_A_LEDGER, workers: int = 1) -> List[Outcome]:
        """Applies envelopes in their order, each with the footprint that its run needs, and makes the next ledger (`apply-list`).

        Returns the outcomes. They may come from `envelope`, without footprints. `page` has no set to draw after this.
        """
        listed = schema.write(schema.LIST, list(sent))
        applied = self.program.apply_list(listed, self.file, self.verdicts(sent), self.now + seconds, workers)
        self.closed = None
        return self.closed_with(sent, applied.report, applied.ledger_file)

    def closed_with(self, sent: Sequence[Json], report: Json, after: bytes) -> List[Outcome]:
        """Goes on to the ledger after, and returns the outcomes of what was sent."""
        asks = [(self.asker(envelope), self.teller(envelope)) for envelope in sent]
        self.file = after
        return [Outcome(pair["result"], pair["success"], None, *ask) for pair, ask in zip(report, asks)]

    def verdicts(self, sent: Sequence[Json]) -> bytes:
        """Returns the verdicts' file on the entries of some envelopes."""
        return schema.write(schema.VERDICTS, wallet.verdicts(sent, self.network))

    def page(self, theme: str = "") -> str:
        """Returns the page of the ledger that was closed last, with the names of accounts and contracts (`explore`)."""
        from .explore import page

        if self.closed is None:
            raise RuntimeError("no ledger is closed yet")
        closed = self.closed
        return page(closed.before, closed.tx_set, closed.report, closed.after, theme, self.names, closed.log)

    def asker(self, envelope: Json) -> Callable[[], Optional[Json]]:
        """Returns what finds the error by which the call of an envelope traps on the ledger as it is now."""
        ledger, close_time = self.file, self.now + SECONDS_A_LEDGER

        def ask() -> Optional[Json]:
            asked = asking.envelope(envelope)
            if asked is None:
                return None
            there = schema.write(schema.LEDGER, asking.ledger(schema.read(schema.LEDGER, ledger)))
            found = self.program.simulate(envelopes.xdr(asked), there, self.verdicts([envelope]), close_time)
            return asking.error_in(found.success)

        return ask

    def teller(self, envelope: Json) -> Callable[[], str]:
        """Returns what tells what an envelope does on the ledger as it is now."""
        ledger, close_time = self.file, self.now + SECONDS_A_LEDGER

        def tell() -> str:
            if not can_tell_why():
                return ""
            return self.program.why(envelopes.xdr(envelope), ledger, self.verdicts([envelope]), close_time)

        return tell


def new_ledger(network: str, seq: int, close_time: int) -> Json:
    """Returns a ledger without entries, under settings like those of the public network."""
    cost = ("constant", "linear")
    terms = {
        work: {"instructions": dict(zip(cost, numbers[:2])), "memory": dict(zip(cost, numbers[2:]))}
        for work, numbers in TERMS.items()
    }
    settings = {
        "min_temporary_ttl": 16,
        "min_persistent_ttl": 4096,
        "max_entry_ttl": 3_110_400,
        "memory_limit": "41943040",
        "terms": terms,
    }
    header = {"network_id": network, "protocol": 23, "seq": seq, "close_time": str(close_time)}
    return {"v2": {**header, "settings": settings, "records": []}}


def module_bytes(module: Any) -> bytes:
    """Returns a module: bytes themselves, or the content of a file, which holds hex digits with remarks if it ends with .hex."""
    if isinstance(module, (bytes, bytearray)):
        return bytes(module)
    with open(module, "rb") as file:
        content = file.read()
    if str(module).endswith(".hex"):
        return bytes.fromhex("".join(line.split("#")[0] for line in content.decode().split("\n")))
    return content


class WorldTest(unittest.TestCase):
    """A test case with a new world for each test, as `self.world`. It is skipped if the program is not built."""

    world: World

    def setUp(self) -> None:
        if not is_there():
            self.skipTest(f"there is no program at {path_of()}")
        self.world = World()

    def needs_keys(self) -> None:
        """Skips the test if accounts cannot sign here."""
        if not wallet.has_cryptography():
            self.skipTest("the package cryptography is missing")
