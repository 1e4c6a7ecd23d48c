"""Builds envelopes, authorisation entries and sets, as JSON."""
from __future__ import annotations

import hashlib
from typing import Any, Iterable, List, Optional, Sequence

from . import schema, strkey
from .xdr import Json
from .values import value

NO_HASH = "00" * 32
MOST_U32 = 2**32 - 1


def strkey_of(who: Any) -> Json:
    """Returns the strkey of an account or a contract, or the strkey itself; of None, None."""
    return getattr(who, "address", who)


# ---- What a transaction does


def call(contract: Any, function: str, args: Iterable[Any] = ()) -> Json:
    """Returns the host function that calls a contract."""
    return {"invoke_contract": call_of(contract, function, args)}


def call_of(contract: Any, function: str, args: Iterable[Any]) -> Json:
    return {"contract_address": strkey_of(contract), "function_name": function, "args": [value(arg) for arg in args]}


def upload(module: bytes) -> Json:
    """Returns the host function that uploads a module."""
    return {"upload_contract_wasm": module.hex()}


def create(code: str, deployer: Any, salt: bytes, args: Optional[Iterable[Any]] = None) -> Json:
    """Returns the host function that creates a contract of a code's hash; with `args`, also none, of the kind with arguments."""
    fields = {"contract_id_preimage": preimage(deployer, salt), "executable": {"wasm": code}}
    if args is None:
        return {"create_contract": fields}
    return {"create_contract_v2": {**fields, "constructor_args": [value(arg) for arg in args]}}


def preimage(deployer: Any, salt: bytes) -> Json:
    """Returns what the id of a contract is made of."""
    return {"address": {"address": strkey_of(deployer), "salt": salt.hex()}}


def salt_of(text: str) -> bytes:
    """Returns a salt that is made of a text."""
    return hashlib.sha256(text.encode()).digest()


def invoke(host_function: Json, auth: Sequence[Json] = ()) -> Json:
    """Returns the operation of a host function with its authorisation entries."""
    return {"invoke_host_function": {"host_function": host_function, "auth": list(auth)}}


def extend(ledgers: int) -> Json:
    """Returns the operation that extends the entries of its footprint."""
    return {"extend_footprint_ttl": {"ext": "v0", "extend_to": ledgers}}


def restore() -> Json:
    """Returns the operation that restores the entries of its footprint."""
    return {"restore_footprint": {"ext": "v0"}}


# ---- What authorises it


AUTHORISED = {
    "invoke_contract": "contract_fn",
    "create_contract": "create_contract_host_fn",
    "create_contract_v2": "create_contract_v2_host_fn",
}


def node(host_function: Json, below: Sequence[Json] = ()) -> Json:
    """Returns a node of an authorisation tree: a call or a create, and the nodes that it may need below it."""
    ((kind, fields),) = host_function.items()
    return {"function": {AUTHORISED[kind]: fields}, "sub_invocations": list(below)}


def source_entry(root: Json) -> Json:
    """Returns the entry by which the operation's source account authorises a tree."""
    return {"credentials": "source_account", "root_invocation": root}


def address_entry(who: Any, root: Json, nonce: int, until: int, signature: Json = "void") -> Json:
    """Returns the entry by which an address authorises a tree until a ledger, with a nonce that it uses once."""
    credentials = {
        "address": strkey_of(who),
        "nonce": str(nonce),
        "signature_expiration_ledger": until,
        "signature": signature,
    }
    return {"credentials": {"address": credentials}, "root_invocation": root}


# ---- Transactions, envelopes and sets


def soroban_data(
    read_only: Sequence[Json] = (),
    read_write: Sequence[Json] = (),
    instructions: int = MOST_U32,
    read_bytes: int = MOST_U32,
    write_bytes: int = MOST_U32,
    fee: int = 0,
) -> Json:
    """Returns what a transaction declares; without numbers, the highest limits, as for a simulation."""
    resources = {
        "footprint": {"read_only": list(read_only), "read_write": list(read_write)},
        "instructions": instructions,
        "disk_read_bytes": read_bytes,
        "write_bytes": write_bytes,
    }
    return {"ext": "v0", "resources": resources, "resource_fee": str(fee)}


def envelope(
    source: Any,
    body: Json,
    seq: int = 1,
    fee: int = 100,
    data: Optional[Json] = None,
    cond: Json = "none",
    memo: Json = "none",
    operation_source: Any = None,
) -> Json:
    """Returns an envelope without signatures, of one operation."""
    transaction = {
        "source_account": strkey_of(source),
        "fee": fee,
        "seq_num": str(seq),
        "cond": cond,
        "memo": memo,
        "operations": [{"source_account": strkey_of(operation_source), "body": body}],
        "ext": {"v1": soroban_data() if data is None else data},
    }
    return {"tx": {"tx": transaction, "signatures": []}}


def fee_bump(inner: Json, source: Any, fee: int) -> Json:
    """Returns a fee bump without signatures round an envelope."""
    outer = {"fee_source": strkey_of(source), "fee": str(fee), "inner_tx": {"tx": inner["tx"]}, "ext": "v0"}
    return {"tx_fee_bump": {"tx": outer, "signatures": []}}


def transaction_of(envelope_: Json) -> Json:
    """Returns the transaction that runs: of a fee bump the inner one."""
    if "tx" in envelope_:
        return envelope_["tx"]["tx"]
    return envelope_["tx_fee_bump"]["tx"]["inner_tx"]["tx"]["tx"]


def with_data(envelope_: Json, data: Json) -> Json:
    """Returns an envelope with other Soroban data. Its signatures go, as they would not be good any more."""
    if "tx" in envelope_:
        return {"tx": {"tx": {**envelope_["tx"]["tx"], "ext": {"v1": data}}, "signatures": []}}
    outer = envelope_["tx_fee_bump"]["tx"]
    return {"tx_fee_bump": {"tx": {**outer, "inner_tx": with_data(outer["inner_tx"], data)}, "signatures": []}}


def auth_entries(envelope_: Json) -> List[Json]:
    """Returns the authorisation entries of an envelope, in their order."""
    bodies = [operation["body"] for operation in transaction_of(envelope_)["operations"]]
    return [entry for body in bodies for entry in body.get("invoke_host_function", {}).get("auth", [])]


def parallel_set(stages: Sequence[Sequence[Sequence[Json]]], previous: str = NO_HASH) -> Json:
    """Returns the set of these stages of clusters of envelopes."""
    phase = {"base_fee": None, "execution_stages": [[list(cluster) for cluster in stage] for stage in stages]}
    return {"v1": {"previous_ledger_hash": previous, "phases": [{"v0": []}, {"v1": phase}]}}


def envelopes_of(tx_set: Json) -> List[Json]:
    """Returns all envelopes of a set, in its order."""
    return [envelope_ for stage in stages_of(tx_set) for cluster in stage for envelope_ in cluster]


def stages_of(tx_set: Json) -> List[List[List[Json]]]:
    """Returns the stages of a set, as the program counts them: a component is a stage of one cluster."""
    stages: List[List[List[Json]]] = []
    for phase in tx_set["v1"]["phases"]:
        stages += [[component["txset_comp_txs_maybe_discounted_fee"]["txs"]] for component in phase.get("v0", [])]
        stages += phase.get("v1", {}).get("execution_stages", [])
    return stages


def asset(code: str, issuer: str) -> Json:
    """Returns an asset by its code of up to 12 letters."""
    kind = "credit_alphanum4" if len(code) <= 4 else "credit_alphanum12"
    return {kind: {"asset_code": code, "issuer": issuer}}


def contract_key(contract: Any, key: Json, durability: str = "persistent") -> Json:
    """Returns the ledger key of a contract's data."""
    return {"contract_data": {"contract": strkey_of(contract), "key": key, "durability": durability}}


def instance_key(contract: Any) -> Json:
    """Returns the ledger key of a contract's instance."""
    return contract_key(contract, "ledger_key_contract_instance")


def code_key(code: str) -> Json:
    """Returns the ledger key of a code's hash."""
    return {"contract_code": {"hash": code}}


def nonce_key(who: Any, nonce: int) -> Json:
    """Returns the ledger key of a nonce that an address has used."""
    return contract_key(who, {"ledger_key_nonce": {"nonce": str(nonce)}}, "temporary")


def public_key(account: str) -> bytes:
    """Returns the 32 bytes of an account's key."""
    return strkey.decode(account, "GM")[:32]


def xdr(envelope_: Json) -> bytes:
    """Returns the file of an envelope."""
    return schema.write(schema.ENVELOPE, envelope_)
