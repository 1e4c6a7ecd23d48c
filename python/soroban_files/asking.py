"""Finds the error by which a call traps: a contract of our own makes the same call by `try_call`, in a copy of the ledger."""
from __future__ import annotations

import hashlib
from typing import Optional

from . import envelopes, ledgers, strkey
from .values import address, symbol
from .xdr import Json

# A module with the function `ask` of a contract's address, a function's name and a vec of arguments. It makes the call by
# `try_call`, and returns a vec of what came: an error alone would fail this contract, too.
MODULE = bytes.fromhex(
    "0061736d01000000"  # magic, version 1
    "0112036000017e60027e7e017e60037e7e7e017e"  # functions of no, two and three i64 that return an i64
    "022c03"  # three imports:
    "0176077665635f6e65770000"  # vec_new
    "01760d7665635f707573685f6261636b0001"  # vec_push_back
    "0164087472795f63616c6c0002"  # try_call
    "03020102"  # one function of three
    "07070103"  # its export:
    "61736b0003"  # ask
    "0a10010e00"  # its body:
    "1000"  # vec_new()
    "2000200120021002"  # try_call(contract, function, args)
    "10010b"  # vec_push_back(.., ..)
)
CODE = hashlib.sha256(MODULE).hexdigest()
CONTRACT = strkey.encode("C", hashlib.sha256(b"a contract that asks another one").digest())


def ledger(before: Json) -> Json:
    """Returns a ledger that has the contract, too."""
    ((version, fields),) = before.items()
    until = fields["seq"] + 1
    instance = {"contract_instance": {"executable": {"wasm": CODE}, "storage": None}}
    data = {
        "ext": "v0",
        "contract": CONTRACT,
        "key": "ledger_key_contract_instance",
        "durability": "persistent",
        "val": instance,
    }
    entries = [{"contract_data": data}, {"contract_code": {"ext": "v0", "hash": CODE, "code": MODULE.hex()}}]
    added = [ledgers.record_of({"last_modified_ledger_seq": 0, "data": entry, "ext": "v0"}, until) for entry in entries]
    return {version: {**fields, "records": ledgers.sorted_records(fields["records"] + added)}}


def envelope(failed: Json) -> Optional[Json]:
    """Returns the envelope that has the contract make the call of another envelope, or None if that makes no call."""
    transaction = envelopes.transaction_of(failed)
    body = transaction["operations"][0]["body"] if len(transaction["operations"]) == 1 else {}
    function = body["invoke_host_function"]["host_function"] if "invoke_host_function" in body else {}
    if "invoke_contract" not in function:
        return None
    call = function["invoke_contract"]
    args = [address(call["contract_address"]), symbol(call["function_name"]), {"vec": call["args"]}]
    asked = envelopes.invoke(envelopes.call(CONTRACT, "ask", args), body["invoke_host_function"]["auth"])
    operation = {**transaction["operations"][0], "body": asked}
    ext = {"v1": envelopes.soroban_data()}
    return {"tx": {"tx": {**transaction, "operations": [operation], "ext": ext}, "signatures": []}}


def error_in(success: Optional[Json]) -> Optional[Json]:
    """Returns the error that the contract caught, if it caught one."""
    if not success:
        return None
    caught = success["return_value"]["vec"][0]
    return caught if isinstance(caught, dict) and "error" in caught else None
