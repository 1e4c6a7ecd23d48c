"""Keys, signatures, and limits: what a wallet does to an envelope, and what a verifier makes of its signatures.

Ed25519 is that of the package `cryptography`, which is imported when a key is first used. All else works without it.
"""
from __future__ import annotations

import hashlib
from typing import Any, Dict, List, NamedTuple, Optional, Sequence, Set, Tuple

from . import envelopes, hashes, ledgers, schema, strkey
from .program import Program, Simulated
from .values import data, mapping, vec
from .xdr import Json


class NoCryptography(RuntimeError):
    """The package `cryptography` is missing."""


def ed25519() -> Any:
    """Returns the module of `cryptography` that has Ed25519."""
    try:
        from cryptography.hazmat.primitives.asymmetric import ed25519 as module
    except ImportError:
        raise NoCryptography("signatures need the package cryptography (Debian: python3-cryptography)") from None
    return module


def has_cryptography() -> bool:
    """Says whether keys and signatures work here."""
    try:
        ed25519()
    except NoCryptography:
        return False
    return True


def verify(public_key: bytes, signature: bytes, message: bytes) -> bool:
    """Says whether a signature of a message is good, by `cryptography`."""
    from cryptography.exceptions import InvalidSignature

    try:
        ed25519().Ed25519PublicKey.from_public_bytes(public_key).verify(signature, message)
    except (InvalidSignature, ValueError):
        return False
    return True


class Key:
    """An account's key. `address` is its strkey, `secret` that of its seed, `public` the 32 bytes of the key."""

    def __init__(self, seed: bytes) -> None:
        if len(seed) != 32:
            raise ValueError(f"a seed has 32 bytes and not {len(seed)}")
        self.seed = seed
        self.private = ed25519().Ed25519PrivateKey.from_private_bytes(seed)
        numbers = self.private.public_key()
        self.public: bytes = numbers.public_bytes_raw() if hasattr(numbers, "public_bytes_raw") else raw_bytes(numbers)
        self.address = strkey.encode("G", self.public)

    @classmethod
    def from_secret(cls, secret: str) -> "Key":
        """Returns the key of a seed as a strkey, S.., or as 64 hex digits."""
        return cls(bytes.fromhex(secret) if len(secret) == 64 else strkey.decode(secret, "S"))

    @classmethod
    def named(cls, name: str) -> "Key":
        """Returns the key whose seed is the SHA-256 of a name: for tests, as anybody can make it."""
        return cls(hashlib.sha256(name.encode()).digest())

    @property
    def secret(self) -> str:
        return strkey.encode("S", self.seed)

    def muxed(self, number: int) -> str:
        """Returns the address of this account with an id, M.."""
        if not 0 <= number < 2**64:
            raise ValueError(f"{number} is no id: they go from 0 to {2**64 - 1}")
        return strkey.encode("M", self.public + number.to_bytes(8, "big"))

    def sign(self, message: bytes) -> bytes:
        """Returns the signature of a message, 64 bytes."""
        return bytes(self.private.sign(message))

    def account_signature(self, payload: str) -> Json:
        """Returns the value by which an account signs the payload of an authorisation entry."""
        return account_signature(self.public, self.sign(bytes.fromhex(payload)))


def raw_bytes(public_key: Any) -> bytes:
    """Returns the 32 bytes of a public key, for versions of `cryptography` before 40."""
    from cryptography.hazmat.primitives import serialization

    return bytes(public_key.public_bytes(serialization.Encoding.Raw, serialization.PublicFormat.Raw))


# ---- Transactions


def sign(envelope: Json, network: str, *keys: Key) -> Json:
    """Returns an envelope with the signatures of these keys added. Of a fee bump they sign the outer envelope."""
    digest = bytes.fromhex(hashes.envelope_hash(network, envelope))
    ((kind, signed),) = envelope.items()
    added = [{"hint": key.public[-4:].hex(), "signature": key.sign(digest).hex()} for key in keys]
    return {kind: {**signed, "signatures": signed["signatures"] + added}}


def signed_by(envelope: Json, network: str) -> bool:
    """Says whether the source of an envelope has signed it; of a fee bump, who pays. This host does not ask."""
    ((kind, signed),) = envelope.items()
    source = signed["tx"]["source_account" if kind == "tx" else "fee_source"]
    key, digest = envelopes.public_key(source), bytes.fromhex(hashes.envelope_hash(network, envelope))
    return any(verify(key, bytes.fromhex(given["signature"]), digest) for given in signed["signatures"])


# ---- Authorisation entries


def account_signature(public_key: bytes, signature: bytes) -> Json:
    """Returns the value of an account's signature: a vec of one map with the key and the signature, as BYTES."""
    return vec(mapping(public_key=data(public_key), signature=data(signature)))


def sign_entry(entry: Json, network: str, key: Key) -> Json:
    """Returns an authorisation entry of an account with the signature of its key."""
    credentials = {
        **entry["credentials"]["address"],
        "signature": key.account_signature(hashes.payload_hash(network, entry)),
    }
    return {**entry, "credentials": {"address": credentials}}


def signers_of(envelope: Json) -> Set[str]:
    """Returns the addresses that sign authorisation entries of an envelope."""
    credentials = [entry["credentials"] for entry in envelopes.auth_entries(envelope)]
    return {given["address"]["address"] for given in credentials if given != "source_account"}


def sign_entries(envelope: Json, network: str, *keys: Key) -> Json:
    """Returns an envelope whose entries of the accounts of these keys are signed. Its own signatures go if one was changed."""
    by_address = {key.address: key for key in keys}

    def signed(entry: Json) -> Json:
        key = (
            None
            if entry["credentials"] == "source_account"
            else by_address.get(entry["credentials"]["address"]["address"])
        )
        return sign_entry(entry, network, key) if key else entry

    return with_entries(envelope, [signed(entry) for entry in envelopes.auth_entries(envelope)])


def with_entries(envelope: Json, entries: Sequence[Json]) -> Json:
    """Returns an envelope with these entries in place of its own, each operation with as many as it has.

    Those that are left go to the last operation that takes entries. If one changes, the signatures of the envelope go.
    """
    if list(entries) == envelopes.auth_entries(envelope):
        return envelope
    if "tx_fee_bump" in envelope:
        outer = envelope["tx_fee_bump"]["tx"]
        return {
            "tx_fee_bump": {"tx": {**outer, "inner_tx": with_entries(outer["inner_tx"], entries)}, "signatures": []}
        }
    operations = list(envelope["tx"]["tx"]["operations"])
    taking = [place for place, operation in enumerate(operations) if "invoke_host_function" in operation["body"]]
    left = list(entries)
    for place in taking:
        body = operations[place]["body"]["invoke_host_function"]
        count = len(left) if place == taking[-1] else len(body["auth"])
        auth, left = left[:count], left[count:]
        operations[place] = {**operations[place], "body": {"invoke_host_function": {**body, "auth": auth}}}
    return {"tx": {"tx": {**envelope["tx"]["tx"], "operations": operations}, "signatures": []}}


# ---- Verdicts


class Judged(NamedTuple):
    """An authorisation entry of an account: what it signs, and why its signature is not good, or nothing."""

    transaction: str
    account: str
    payload: str
    fault: str

    def verdict(self) -> Json:
        return {"key": self.account, "payload": self.payload}


def judge(envelope: Json, network: str) -> List[Judged]:
    """Judges the signatures of all entries of accounts. Contracts judge their own, and other addresses have none."""
    found = []
    for entry in envelopes.auth_entries(envelope):
        credentials = {} if entry["credentials"] == "source_account" else entry["credentials"]["address"]
        if credentials.get("address", "").startswith("G"):
            payload = hashes.payload_hash(network, entry)
            fault = signature_fault(credentials["signature"], envelopes.public_key(credentials["address"]), payload)
            found.append(Judged(hashes.envelope_hash(network, envelope), credentials["address"], payload, fault))
    return found


def signature_fault(signature: Json, public_key: bytes, payload: str) -> str:
    """Returns why a value is no good signature of an account's key for a payload, or an empty text.

    The key has to be among those that sign, and all signatures have to be good.
    """
    if signature == "void":
        return "it is not signed"
    parts = signature_parts(signature)
    if parts is None:
        return "the signature has another shape than [{public_key: BYTES, signature: BYTES}, ..] with rising keys"
    if public_key not in [key for key, _ in parts]:
        return "the account's key has not signed"
    good = [verify(key, given, bytes.fromhex(payload)) for key, given in parts]
    return "" if all(good) else "a signature is not good"


def signature_parts(signature: Json) -> Optional[List[Tuple[bytes, bytes]]]:
    """Returns the keys and the signatures of the value that accounts sign by, with rising keys, and of no other value."""
    parts = []
    try:
        for member in signature["vec"]:
            fields = {pair["key"]["symbol"]: bytes.fromhex(pair["val"]["bytes"]) for pair in member["map"]}
            parts.append((fields["public_key"], fields["signature"]))
    except (KeyError, TypeError, ValueError):
        return None
    keys = [key for key, _ in parts]
    is_shaped = signature == {"vec": [account_signature(*part)["vec"][0] for part in parts]}
    return parts if is_shaped and keys == sorted(set(keys)) else None


def verdicts_of(judged: Sequence[Judged]) -> Json:
    """Returns the verdicts' file: the good signatures, each once, in order."""
    good = {(entry.account, entry.payload) for entry in judged if not entry.fault}
    return [{"key": account, "payload": payload} for account, payload in sorted(good)]


def verdicts(envelopes_: Sequence[Json], network: str) -> Json:
    """Returns the verdicts on all entries of some envelopes. Without entries of accounts, this needs no `cryptography`."""
    return verdicts_of([judged for envelope in envelopes_ for judged in judge(envelope, network)])


# ---- Limits


class Limits(NamedTuple):
    """What a transaction took on a ledger: instructions, bytes of the entries it declares, and of those it wrote."""

    instructions: int
    read_bytes: int
    write_bytes: int

    def with_margin(self, percent: int) -> "Limits":
        """Returns the limits that leave a margin, rounded up."""
        return Limits(*(min(-(-number * (100 + percent) // 100), envelopes.MOST_U32) for number in self))


def declared_bytes(ledger: Json, data_: Json) -> int:
    """Returns the bytes of the live entries of a footprint, as the program counts them against the declared bytes read."""
    footprint, seq = data_["resources"]["footprint"], ledgers.body(ledger)["seq"]
    there = ledgers.entries(ledger)
    keys = [schema.write(schema.KEY, key) for key in footprint["read_only"] + footprint["read_write"]]
    live = (there[key] for key in keys if key in there and there[key]["ttl"]["live_until_ledger_seq"] > seq)
    return sum(len(schema.write(schema.ENTRY, record["entry"])) for record in live)


def written_bytes(before: Json, after: Json) -> int:
    """Returns the bytes of the entries that are new or changed in a ledger."""
    old: Dict[bytes, Json] = {key: record["entry"] for key, record in ledgers.entries(before).items()}
    changed = (record["entry"] for key, record in ledgers.entries(after).items() if old.get(key) != record["entry"])
    return sum(len(schema.write(schema.ENTRY, entry)) for entry in changed)


def measured(
    program: Program, envelope: Json, ledger: Json, verdicts_: Json, close_time: int, simulated: Simulated
) -> Limits:
    """Returns what an envelope takes on a ledger.

    Instructions are those of the simulation. The bytes written are found by applying the envelope alone, with its footprint.
    """
    tx_set = envelopes.parallel_set(
        [[[with_footprint(envelope, simulated.soroban_data, Limits(*[envelopes.MOST_U32] * 3))]]]
    )
    files = (
        schema.write(schema.SET, tx_set),
        schema.write(schema.LEDGER, ledger),
        schema.write(schema.VERDICTS, verdicts_),
    )
    after = schema.read(schema.LEDGER, program.apply(*files, close_time).ledger_file)
    return Limits(simulated.instructions, declared_bytes(ledger, simulated.soroban_data), written_bytes(ledger, after))


def with_footprint(envelope: Json, found: Json, limits: Limits) -> Json:
    """Returns an envelope with the footprint that a simulation found, and these limits. Its signatures go."""
    resources = {
        **found["resources"],
        "instructions": limits.instructions,
        "disk_read_bytes": limits.read_bytes,
        "write_bytes": limits.write_bytes,
    }
    return envelopes.with_data(envelope, {**found, "resources": resources})


def filled(
    program: Program, envelope: Json, ledger: Json, verdicts_: Json, close_time: int, margin: int = 20
) -> Tuple[Json, Simulated]:
    """Simulates an envelope; returns it with the footprint that was found and limits with a margin in percent, unsigned.

    The second result is the simulation. If that failed, the limits stay as they were declared.
    """
    files = (envelopes.xdr(envelope), schema.write(schema.LEDGER, ledger), schema.write(schema.VERDICTS, verdicts_))
    simulated = program.simulate(*files, close_time)
    if simulated.success is None:
        return envelopes.with_data(envelope, simulated.soroban_data), simulated
    limits = measured(program, envelope, ledger, verdicts_, close_time, simulated).with_margin(margin)
    return with_footprint(envelope, simulated.soroban_data, limits), simulated
