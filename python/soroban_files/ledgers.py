"""What makes a ledger's file valid beyond its spelling, and what its records are called (docs/FORMATS.md)."""
from __future__ import annotations

import hashlib
from typing import Dict, List, Optional, Tuple

from . import schema
from .xdr import Json, Refusal

LEAST_PROTOCOL = 23
MOST_LIFE = 200_000_000
LAST_LEDGER = 4_000_000_000

REASONS = {
    1: "the bytes spell no ledger",
    2: "a record's key does not come after the key before it",
    3: "the TTL's hash is not the hash of the record's key",
    4: "a code's hash is not the hash of the code",
    5: "the protocol or the settings are out of bounds",
    6: "no ledger can follow this one",
}


class LedgerRefusal(ValueError):
    """A file that is no valid ledger: the number of the reason, and a byte offset (reason 1) or a record's index."""

    def __init__(self, number: int, at: int, spelling: Optional[Refusal] = None) -> None:
        super().__init__(f"ledger refused: {number} at {at}")
        self.number = number
        self.at = at
        self.spelling = spelling
        self.why = REASONS[number] if spelling is None else f"{REASONS[1]}: {spelling.why}"


def body(ledger: Json) -> Dict[str, Json]:
    """Returns the fields of a ledger of either version."""
    return next(iter(ledger.values()))


def protocol(ledger: Json) -> int:
    """Returns the number of the protocol; a file of version 1 is one of protocol 23."""
    return body(ledger).get("protocol", LEAST_PROTOCOL)


def migrated(ledger: Json) -> Json:
    """Returns the ledger as a file of version 2 has it."""
    return {"v2": {**body(ledger), "protocol": protocol(ledger)}}


def key_of(entry: Json) -> Json:
    """Returns the key of a ledger entry."""
    ((kind, fields),) = entry["data"].items()
    if kind == "contract_code":
        return {kind: {"hash": fields["hash"]}}
    return {kind: {name: fields[name] for name in ("contract", "key", "durability")}}


def key_bytes(entry: Json) -> bytes:
    """Returns the XDR of an entry's key, by which records are ordered."""
    return schema.write(schema.KEY, key_of(entry))


def key_hash(key: Json) -> str:
    """Returns the SHA-256 of a key's XDR, which a TTL names."""
    return sha256(schema.write(schema.KEY, key))


def record_of(entry: Json, live_until: int) -> Json:
    """Returns the record of an entry."""
    return {"entry": entry, "ttl": {"key_hash": key_hash(key_of(entry)), "live_until_ledger_seq": live_until}}


def sorted_records(records: Json) -> Json:
    """Returns records in the order of their keys' bytes, as a ledger's file has them."""
    return sorted(records, key=lambda record: key_bytes(record["entry"]))


def entries(ledger: Json) -> Dict[bytes, Json]:
    """Returns the records of a ledger by their keys' bytes."""
    return {key_bytes(record["entry"]): record for record in body(ledger)["records"]}


def check(ledger: Json, follows: bool = False) -> None:
    """Raises `LedgerRefusal` for the first fault of a ledger; with `follows`, another ledger has to be able to follow."""
    fields = body(ledger)
    if out_of_bounds(ledger):
        raise LedgerRefusal(5, 0)
    if follows and fields["seq"] >= LAST_LEDGER:
        raise LedgerRefusal(6, 0)
    before = b""
    for index, record in enumerate(fields["records"]):
        key = key_bytes(record["entry"])
        fault = fault_of(before, key, record)
        if fault:
            raise LedgerRefusal(fault, index)
        before = key


def out_of_bounds(ledger: Json) -> List[Tuple[str, int, str]]:
    """Returns each field of the header that is out of its bounds: its path, what is there, and what could be there."""
    settings = body(ledger)["settings"]
    most = settings["max_entry_ttl"]
    bounds = [("protocol", protocol(ledger), LEAST_PROTOCOL, 2**32 - 1)]
    bounds += [(f"settings.{name}", settings[name], 1, most) for name in ("min_temporary_ttl", "min_persistent_ttl")]
    bounds.append(("settings.max_entry_ttl", most, 1, MOST_LIFE))
    instruction = settings["terms"]["wasm_insn_exec"]["instructions"]["constant"]
    bounds.append(("settings.terms.wasm_insn_exec.instructions.constant", instruction, 1, 2**32 - 1))
    return [(path, number, f"{low:,} to {high:,}") for path, number, low, high in bounds if not low <= number <= high]


def fault_of(before: bytes, key: bytes, record: Json) -> int:
    """Returns the number of a record's first fault, given the key before it and its own, or 0."""
    if before and before >= key:
        return 2
    if record["ttl"]["key_hash"] != sha256(key):
        return 3
    code = record["entry"]["data"].get("contract_code")
    if code and sha256(bytes.fromhex(code["code"])) != code["hash"]:
        return 4
    return 0


def read(data: bytes, follows: bool = False, checked: bool = True) -> Json:
    """Returns the ledger that a file spells. Raises `LedgerRefusal` where the program refuses it."""
    try:
        ledger = schema.read(schema.LEDGER, data)
    except Refusal as refusal:
        raise LedgerRefusal(1, refusal.at, refusal) from None
    if checked:
        check(ledger, follows)
    return ledger


def sha256(data: bytes) -> str:
    """Returns a SHA-256 as hex digits."""
    return hashlib.sha256(data).hexdigest()
