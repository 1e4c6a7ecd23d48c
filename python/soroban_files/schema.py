"""The types of all files (docs/FORMATS.md), as one table. Names are those of the Stellar XDR files, in the style of SEP-51."""
from __future__ import annotations

import sys
from typing import Dict, List, Optional, Tuple

from .xdr import (
    Boolean,
    Cursor,
    Fixed,
    Json,
    Listed,
    Number,
    Opaque,
    Optional_,
    Recursive,
    Refusal,
    Strkey,
    Struct,
    Type,
    Union,
    Writer,
    enumeration,
    escaped,
    unescaped,
)
from . import strkey

# Values and invocations have up to 100 levels each, and a level takes up to seven calls of Python.
sys.setrecursionlimit(max(sys.getrecursionlimit(), 10_000))

# ---- Numbers, bytes and hashes

U32 = Number("uint32", 4, signed=False)
I32 = Number("int32", 4, signed=True)
U64 = Number("uint64", 8, signed=False)
I64 = Number("int64", 8, signed=True)
BOOL = Boolean()
HASH = Fixed("hash", 32)
EXT = Union("extension", {0: ("v0", None)})  # an extension point that has nothing

# ---- Accounts and addresses

ACCOUNT = Strkey("account", {0: ("G", ("key",))})
MUXED_ACCOUNT = Strkey("account", {0: ("G", ("key",)), 0x100: ("M", ("id", "key"))})
BALANCE_ID = Strkey("claimable balance", {0: ("B", ("key",))})
SIGNER = Strkey("signer", {0: ("G", ("key",)), 1: ("T", ("key",)), 2: ("X", ("key",)), 3: ("P", ("key", "payload"))})
ADDRESS = Strkey(
    "address",
    {
        0: ("G", (0, "key")),
        1: ("C", ("key",)),
        2: ("M", ("id", "key")),
        3: ("B", (0, "key")),
        4: ("L", ("key",)),
    },
)
POOL_ID = Fixed("pool", 32, lambda data: strkey.encode("L", data), lambda text: strkey.decode(text, "L"))
CONTRACT_ID = Fixed("contract", 32, lambda data: strkey.encode("C", data), lambda text: strkey.decode(text, "C"))
ACCOUNT_KEY = Fixed("account's key", 32, lambda data: strkey.encode("G", data), lambda text: strkey.decode(text, "G"))


def asset_code(size: int) -> Fixed:
    """Returns the type of an asset's code: in JSON a text without the zeros at its end."""
    name = f"code of {size} bytes"
    return Fixed(name, size, lambda data: escaped(data.rstrip(b"\0")), lambda text: unescaped(text).ljust(size, b"\0"))


ASSETS = {
    0: ("native", None),
    1: ("credit_alphanum4", Struct("asset", asset_code=asset_code(4), issuer=ACCOUNT)),
    2: ("credit_alphanum12", Struct("asset", asset_code=asset_code(12), issuer=ACCOUNT)),
}
ASSET = Union("asset", ASSETS)
TRUSTLINE_ASSET = Union("asset of a trust line", {**ASSETS, 3: ("pool_share", POOL_ID)})

# ---- Values

VALUE = Recursive("value", 100)
VALUES = Listed("values", VALUE)
ITEMS = Optional_(Listed("vec", VALUE, within=VALUE))
MEMBERS = Optional_(Listed("map", Struct("map entry", key=VALUE, val=VALUE), within=VALUE))
ERROR_CODES = (
    "arith_domain",
    "index_bounds",
    "invalid_input",
    "missing_value",
    "existing_value",
    "exceeded_limit",
    "invalid_action",
    "internal_error",
    "unexpected_type",
    "unexpected_size",
)
ERROR_TYPES = ("wasm_vm", "context", "storage", "object", "crypto", "events", "budget", "value", "auth")
ERROR_CODE = enumeration("error code", *ERROR_CODES)
ERROR = Union(
    "error", {0: ("contract", U32), **{number: (word, ERROR_CODE) for number, word in enumerate(ERROR_TYPES, 1)}}
)
EXECUTABLE = Union("executable", {0: ("wasm", HASH), 1: ("stellar_asset", None)})
SYMBOL = Opaque("symbol", 32, text=True)
VALUE_ARMS = {
    0: ("bool", BOOL),
    1: ("void", None),
    2: ("error", ERROR),
    3: ("u32", U32),
    4: ("i32", I32),
    5: ("u64", U64),
    6: ("i64", I64),
    7: ("timepoint", U64),
    8: ("duration", U64),
    9: ("u128", Number("uint128", 16, signed=False)),
    10: ("i128", Number("int128", 16, signed=True)),
    11: ("u256", Number("uint256", 32, signed=False)),
    12: ("i256", Number("int256", 32, signed=True)),
    13: ("bytes", Opaque("bytes")),
    14: ("string", Opaque("string", text=True)),
    15: ("symbol", SYMBOL),
    16: ("vec", ITEMS),
    17: ("map", MEMBERS),
    18: ("address", ADDRESS),
    19: ("contract_instance", Struct("instance", executable=EXECUTABLE, storage=MEMBERS)),
    20: ("ledger_key_contract_instance", None),
    21: ("ledger_key_nonce", Struct("nonce", nonce=I64)),
}
VALUE.of = Union("value", VALUE_ARMS)
VALUE_TYPE = enumeration("type of a value", *(word for word, _ in VALUE_ARMS.values()))

# ---- Keys and entries of the ledger

DURABILITY = enumeration("durability", "temporary", "persistent")
KEY = Union(
    "ledger key",
    {
        0: ("account", Struct("account's key", account_id=ACCOUNT)),
        1: ("trustline", Struct("trust line's key", account_id=ACCOUNT, asset=TRUSTLINE_ASSET)),
        2: ("offer", Struct("offer's key", seller_id=ACCOUNT, offer_id=I64)),
        3: ("data", Struct("data's key", account_id=ACCOUNT, data_name=Opaque("name", 64, text=True))),
        4: ("claimable_balance", Struct("balance's key", balance_id=BALANCE_ID)),
        5: ("liquidity_pool", Struct("pool's key", liquidity_pool_id=POOL_ID)),
        6: ("contract_data", Struct("contract data's key", contract=ADDRESS, key=VALUE, durability=DURABILITY)),
        7: ("contract_code", Struct("contract code's key", hash=HASH)),
        9: ("ttl", Struct("TTL's key", key_hash=HASH)),
    },
)
CONTRACT_DATA = Struct("contract data", ext=EXT, contract=ADDRESS, key=VALUE, durability=DURABILITY, val=VALUE)
CONTRACT_CODE = Struct("contract code", ext=EXT, hash=HASH, code=Opaque("module"))
ENTRY_ARMS: Dict[int, Tuple[str, Optional[Type]]] = {
    6: ("contract_data", CONTRACT_DATA),
    7: ("contract_code", CONTRACT_CODE),
}
ENTRY_DATA = Union("data of an entry", ENTRY_ARMS)
ENTRY = Struct("ledger entry", last_modified_ledger_seq=U32, data=ENTRY_DATA, ext=EXT)
TTL = Struct("TTL", key_hash=HASH, live_until_ledger_seq=U32)
RECORD = Struct("record", entry=ENTRY, ttl=TTL)

# ---- The ledger's file and the verdicts' file

KINDS_OF_WORK = (
    "wasm_insn_exec",
    "mem_alloc",
    "mem_cpy",
    "mem_cmp",
    "dispatch_host_function",
    "visit_object",
    "val_ser",
    "val_deser",
    "compute_sha256_hash",
    "vm_instantiation",
    "invoke_vm_function",
)
COST = Struct("cost", constant=U32, linear=U32)
TERMS = Struct(
    "terms", **{work: Struct("terms of a kind of work", instructions=COST, memory=COST) for work in KINDS_OF_WORK}
)
SETTINGS = Struct(
    "settings",
    min_temporary_ttl=U32,
    min_persistent_ttl=U32,
    max_entry_ttl=U32,
    memory_limit=U64,
    terms=TERMS,
)
RECORDS = Listed("records", RECORD)
LEDGER = Union(
    "ledger file",
    {
        1: ("v1", Struct("ledger", network_id=HASH, seq=U32, close_time=U64, settings=SETTINGS, records=RECORDS)),
        2: (
            "v2",
            Struct(
                "ledger", network_id=HASH, protocol=U32, seq=U32, close_time=U64, settings=SETTINGS, records=RECORDS
            ),
        ),
    },
)
VERDICT = Struct("verdict", key=ACCOUNT_KEY, payload=HASH)
VERDICTS = Listed("verdicts", VERDICT)

# ---- The schedule's file: for each stage the numbers of clusters, in the order in which their transactions run

SCHEDULE = Listed("schedule", Listed("order of a stage", U32))

# ---- The change log: for each stage the changes of its transactions, and those of its end


class LoggedEntry(Type):
    """A ledger entry of a log. A TTL entry is one, too, if its last modified ledger is 0."""

    name = "entry of a log"
    data = Union("data of a log's entry", {**ENTRY_ARMS, 9: ("ttl", TTL)})
    with_ttl = Struct(name, last_modified_ledger_seq=U32, data=data, ext=EXT)

    def of(self, modified: Json) -> Struct:
        """Returns the type of an entry with this last modified ledger."""
        return self.with_ttl if modified == 0 else ENTRY

    def read(self, cursor: Cursor) -> Json:
        return self.of(int.from_bytes(cursor.data[cursor.place : cursor.place + 4], "big")).read(cursor)

    def write(self, out: Writer, value: Json) -> None:
        self.of(value.get("last_modified_ledger_seq") if isinstance(value, dict) else 0).write(out, value)

    def expects(self, role: str) -> str:
        return self.with_ttl.expects(role)


LOGGED_ENTRY = LoggedEntry()
CHANGE = Union(
    "change of an entry",
    {0: ("created", LOGGED_ENTRY), 1: ("updated", LOGGED_ENTRY), 2: ("removed", KEY), 3: ("state", LOGGED_ENTRY)},
)
CHANGES = Listed("changes", CHANGE)
LOG = Struct(
    "change log",
    old_seq=U32,
    old_close_time=U64,
    new_close_time=U64,
    stages=Listed("stages", Struct("stage of a log", transactions=Listed("transactions", CHANGES), end=CHANGES)),
)

# ---- Calls, creates and what authorises them

PREIMAGE = Union(
    "preimage of a contract's id",
    {
        0: ("address", Struct("preimage", address=ADDRESS, salt=HASH)),
        1: ("asset", ASSET),
    },
)
CALL = Struct("call", contract_address=ADDRESS, function_name=Opaque("function's name", 32, text=True), args=VALUES)
CREATE = Struct("create", contract_id_preimage=PREIMAGE, executable=EXECUTABLE)
CREATE_V2 = Struct(
    "create with arguments", contract_id_preimage=PREIMAGE, executable=EXECUTABLE, constructor_args=VALUES
)
HOST_FUNCTION = Union(
    "host function",
    {
        0: ("invoke_contract", CALL),
        1: ("create_contract", CREATE),
        2: ("upload_contract_wasm", Opaque("module")),
        3: ("create_contract_v2", CREATE_V2),
    },
)
FUNCTION = Union(
    "authorised function",
    {
        0: ("contract_fn", CALL),
        1: ("create_contract_host_fn", CREATE),
        2: ("create_contract_v2_host_fn", CREATE_V2),
    },
)
INVOCATION = Recursive("invocation", 100)
INVOCATION.of = Struct(
    "invocation",
    function=FUNCTION,
    sub_invocations=Listed("sub-invocations", INVOCATION, within=INVOCATION),
)
ADDRESS_CREDENTIALS = Struct(
    "credentials", address=ADDRESS, nonce=I64, signature_expiration_ledger=U32, signature=VALUE
)
CREDENTIALS = Union("credentials", {0: ("source_account", None), 1: ("address", ADDRESS_CREDENTIALS)})
AUTH = Struct("authorisation entry", credentials=CREDENTIALS, root_invocation=INVOCATION)

# ---- Transactions and envelopes

FOOTPRINT = Struct("footprint", read_only=Listed("keys", KEY), read_write=Listed("keys", KEY))
RESOURCES = Struct("resources", footprint=FOOTPRINT, instructions=U32, disk_read_bytes=U32, write_bytes=U32)
SOROBAN_DATA = Struct("Soroban data", ext=EXT, resources=RESOURCES, resource_fee=I64)
BODY = Union(
    "operation",
    {
        24: (
            "invoke_host_function",
            Struct("invocation", host_function=HOST_FUNCTION, auth=Listed("authorisation entries", AUTH)),
        ),
        25: ("extend_footprint_ttl", Struct("extension", ext=EXT, extend_to=U32)),
        26: ("restore_footprint", Struct("restoration", ext=EXT)),
    },
)
OPERATION = Struct("operation", source_account=Optional_(MUXED_ACCOUNT), body=BODY)
TIME_BOUNDS = Struct("time bounds", min_time=U64, max_time=U64)
LEDGER_BOUNDS = Struct("ledger bounds", min_ledger=U32, max_ledger=U32)
SIGNERS = Listed("signers", SIGNER, 2)
PRECONDITIONS_V2 = Struct(
    "preconditions",
    time_bounds=Optional_(TIME_BOUNDS),
    ledger_bounds=Optional_(LEDGER_BOUNDS),
    min_seq_num=Optional_(I64),
    min_seq_age=U64,
    min_seq_ledger_gap=U32,
    extra_signers=SIGNERS,
)
PRECONDITIONS = Union("preconditions", {0: ("none", None), 1: ("time", TIME_BOUNDS), 2: ("v2", PRECONDITIONS_V2)})
MEMO = Union(
    "memo",
    {
        0: ("none", None),
        1: ("text", Opaque("text", 28, text=True)),
        2: ("id", U64),
        3: ("hash", HASH),
        4: ("return", HASH),
    },
)
TRANSACTION = Struct(
    "transaction",
    source_account=MUXED_ACCOUNT,
    fee=U32,
    seq_num=I64,
    cond=PRECONDITIONS,
    memo=MEMO,
    operations=Listed("operations", OPERATION, 100),
    ext=Union("extension", {0: ("v0", None), 1: ("v1", SOROBAN_DATA)}),
)
SIGNATURE = Struct("signature", hint=Fixed("hint", 4), signature=Opaque("signature", 64))
SIGNATURES = Listed("signatures", SIGNATURE, 20)
SIGNED_TRANSACTION = Struct("signed transaction", tx=TRANSACTION, signatures=SIGNATURES)
FEE_BUMP = Struct(
    "fee bump",
    fee_source=MUXED_ACCOUNT,
    fee=I64,
    inner_tx=Union("inner envelope", {2: ("tx", SIGNED_TRANSACTION)}),
    ext=EXT,
)
SIGNED_FEE_BUMP = Struct("signed fee bump", tx=FEE_BUMP, signatures=SIGNATURES)
ENVELOPE = Union("envelope", {2: ("tx", SIGNED_TRANSACTION), 5: ("tx_fee_bump", SIGNED_FEE_BUMP)})

# ---- Sets

BASE_FEE = Optional_(I64)
COMPONENT = Union(
    "component",
    {
        0: (
            "txset_comp_txs_maybe_discounted_fee",
            Struct("component", base_fee=BASE_FEE, txs=Listed("envelopes", ENVELOPE)),
        ),
    },
)
CLUSTER = Listed("cluster", ENVELOPE)
STAGE = Listed("stage", CLUSTER)
PHASE = Union(
    "phase",
    {
        0: ("v0", Listed("components", COMPONENT)),
        1: ("v1", Struct("parallel phase", base_fee=BASE_FEE, execution_stages=Listed("stages", STAGE))),
    },
)
SET = Union("set", {1: ("v1", Struct("set", previous_ledger_hash=HASH, phases=Listed("phases", PHASE)))})
LIST = Listed("list of envelopes", ENVELOPE)

# ---- Results, the report and the simulation

INVOKE_RESULT = Union(
    "result of a call",
    {
        0: ("success", HASH),
        -1: ("malformed", None),
        -2: ("trapped", None),
        -3: ("resource_limit_exceeded", None),
        -4: ("entry_archived", None),
    },
)
EXTEND_RESULT = Union("result of an extension", {0: ("success", None), -1: ("malformed", None)})
OPERATION_RESULT = Union(
    "result of an operation",
    {
        0: (
            "op_inner",
            Union(
                "result of a body",
                {
                    24: ("invoke_host_function", INVOKE_RESULT),
                    25: ("extend_footprint_ttl", EXTEND_RESULT),
                },
            ),
        ),
        -3: ("op_not_supported", None),
    },
)
OPERATION_RESULTS = Listed("results of operations", OPERATION_RESULT)
RESULT_CODES = {
    0: ("tx_success", OPERATION_RESULTS),
    -1: ("tx_failed", OPERATION_RESULTS),
    -2: ("tx_too_early", None),
    -3: ("tx_too_late", None),
    -4: ("tx_missing_operation", None),
    -16: ("tx_malformed", None),
    -17: ("tx_soroban_invalid", None),
}
INNER_RESULT = Struct("inner result", fee_charged=I64, result=Union("result code", RESULT_CODES), ext=EXT)
INNER_PAIR = Struct("inner pair", transaction_hash=HASH, result=INNER_RESULT)
RESULT = Struct(
    "result",
    fee_charged=I64,
    result=Union(
        "result code",
        {
            **RESULT_CODES,
            1: ("tx_fee_bump_inner_success", INNER_PAIR),
            -13: ("tx_fee_bump_inner_failed", INNER_PAIR),
        },
    ),
    ext=EXT,
)
RESULTS = Listed("results", Struct("result pair", transaction_hash=HASH, result=RESULT))

EVENT_BODY = Union("body of an event", {0: ("v0", Struct("event", topics=VALUES, data=VALUE))})
EVENT_TYPE = enumeration("type of an event", "system", "contract", "diagnostic")
EVENT = Struct("event", ext=EXT, contract_id=Optional_(CONTRACT_ID), type=EVENT_TYPE, body=EVENT_BODY)
SUCCESS = Struct("success preimage", return_value=VALUE, events=Listed("events", EVENT))


class Report(Type):
    """Results, and behind them for each one a bool, and the success preimage if it is 1. In JSON, both stand together."""

    name = "report"
    success = Optional_(SUCCESS)

    def read(self, cursor: Cursor) -> Json:
        pairs = RESULTS.read(cursor)
        for index, pair in enumerate(pairs):
            cursor.steps.append(f"[{index}].success")
            pair["success"] = self.success.read(cursor)
            cursor.steps.pop()
        return pairs

    def write(self, out: Writer, value: Json) -> None:
        if not isinstance(value, list) or not all(isinstance(pair, dict) and "success" in pair for pair in value):
            raise out.misfit("a report is a list of results, each with success, which may be null")
        RESULTS.write(out, [{field: part for field, part in pair.items() if field != "success"} for pair in value])
        for index, pair in enumerate(value):
            out.steps.append(f"[{index}].success")
            self.success.write(out, pair["success"])
            out.steps.pop()

    def expects(self, role: str) -> str:
        return "report: results, and what each call returned"


REPORT = Report()
SIMULATION = Struct("simulation", soroban_data=SOROBAN_DATA, result=RESULT, success=Optional_(SUCCESS))
ENTRIES = Listed("recorded entries", AUTH)

# ---- What a file or a part of one can be

FILES: Dict[str, Type] = {
    "set": SET,
    "envelope": ENVELOPE,
    "ledger": LEDGER,
    "verdicts": VERDICTS,
    "report": REPORT,
    "simulation": SIMULATION,
    "entries": ENTRIES,
    "schedule": SCHEDULE,
    "list": LIST,
    "log": LOG,
    "value": VALUE,
}
PARTS: Dict[str, Type] = {
    "account": MUXED_ACCOUNT,
    "auth": AUTH,
    "body": BODY,
    "cluster": CLUSTER,
    "component": COMPONENT,
    "entry": ENTRY,
    "event": EVENT,
    "fee-bump": FEE_BUMP,
    "function": FUNCTION,
    "host-function": HOST_FUNCTION,
    "invocation": INVOCATION,
    "key": KEY,
    "ledger-bounds": LEDGER_BOUNDS,
    "memo": MEMO,
    "operation": OPERATION,
    "phase": PHASE,
    "preconditions": PRECONDITIONS,
    "preimage": PREIMAGE,
    "record": RECORD,
    "result": RESULT,
    "results": RESULTS,
    "signature": SIGNATURE,
    "signer": SIGNER,
    "signers": SIGNERS,
    "soroban-data": SOROBAN_DATA,
    "stage": STAGE,
    "success": SUCCESS,
    "transaction": TRANSACTION,
    "value-type": VALUE_TYPE,
    "verdict": VERDICT,
}
KINDS: Dict[str, Type] = {**FILES, **PARTS}


def read(kind: Type, data: bytes) -> Json:
    """Returns the value that the bytes spell. Raises `Refusal` where the program refuses them."""
    cursor = Cursor(data)
    value = kind.read(cursor)
    cursor.finish()
    return value


def write(kind: Type, value: Json) -> bytes:
    """Returns the bytes of a value. Raises `Misfit` if it is none of the type."""
    out = Writer()
    kind.write(out, value)
    return b"".join(out.parts)


def names(kinds: Dict[str, Type]) -> List[str]:
    """Returns the names of kinds, for messages."""
    return sorted(kinds)


__all__ = ["FILES", "KINDS", "PARTS", "Refusal", "names", "read", "write"]
