"""Values of contracts: made from Python, read back as Python, written on one line, and parsed from a command line."""
from __future__ import annotations

import json
from typing import Any, Callable, Dict, List, Tuple

from . import schema, strkey
from .files import from_json
from .xdr import Json, brief, escaped, unescaped

VOID: Json = "void"
NUMBERS = ("u32", "i32")
TEXT_NUMBERS = ("u64", "i64", "timepoint", "duration", "u128", "i128", "u256", "i256")


def u32(number: int) -> Json:
    return {"u32": number}


def i32(number: int) -> Json:
    return {"i32": number}


def u64(number: int) -> Json:
    return {"u64": str(number)}


def i64(number: int) -> Json:
    return {"i64": str(number)}


def timepoint(seconds: int) -> Json:
    return {"timepoint": str(seconds)}


def duration(seconds: int) -> Json:
    return {"duration": str(seconds)}


def u128(number: int) -> Json:
    return {"u128": str(number)}


def i128(number: int) -> Json:
    return {"i128": str(number)}


def boolean(truth: bool) -> Json:
    return {"bool": truth}


def symbol(text: str) -> Json:
    return {"symbol": text}


def string(text: str) -> Json:
    return {"string": escaped(text.encode())}


def data(content: bytes) -> Json:
    """Returns BYTES."""
    return {"bytes": content.hex()}


def error(code: int) -> Json:
    """Returns an error of a contract's own."""
    return {"error": {"contract": code}}


def address(who: Any) -> Json:
    """Returns the address of a strkey, or of anything that has an attribute `address`."""
    return {"address": getattr(who, "address", who)}


def vec(*items: Any) -> Json:
    return {"vec": [value(item) for item in items]}


def mapping(*pairs: Any, **members: Any) -> Json:
    """Returns a map of pairs of a key and a value, and of members at symbols, in the order that the host wants."""
    entries = [(value(key), value(val)) for key, val in pairs] + [
        (symbol(key), value(val)) for key, val in members.items()
    ]
    return {"map": [{"key": key, "val": val} for key, val in sorted(entries, key=lambda entry: order(entry[0]))]}


def value(item: Any) -> Json:
    """Returns the value that an object of Python means.

    JSON of a value stands for itself, what has an attribute `address` for its address. None, booleans, bytes and lists mean
    VOID, BOOL, BYTES and VEC. Numbers and texts have to say their type: `u32(5)`, `symbol("a")`.
    """
    if hasattr(item, "address"):
        return address(item)
    if item is None:
        return VOID
    if isinstance(item, bool):
        return boolean(item)
    if isinstance(item, (bytes, bytearray)):
        return data(bytes(item))
    if isinstance(item, (list, tuple)):
        return vec(*item)
    if isinstance(item, dict) and len(item) == 1 or item in (VOID, "ledger_key_contract_instance"):
        return item
    raise TypeError(f"{brief(item)} is no value: say its type, as in u32(5), i128(5), symbol('a') or address('G..')")


def order(key: Json) -> Tuple[int, Any]:
    """Returns what sorts the keys of a map: the number of the type, then the content. Keys of maps are mostly of one type."""
    spelled = schema.write(schema.VALUE, key)
    number = int.from_bytes(spelled[:4], "big")
    if isinstance(key, dict):
        ((kind, content),) = key.items()
        if kind in ("symbol", "string"):
            return number, unescaped(content)
        if kind == "bytes":
            return number, bytes.fromhex(content)
        if kind in NUMBERS + TEXT_NUMBERS:
            return number, int(content)
        if kind == "vec":
            return number, [order(item) for item in content or []]
    return number, spelled


def plain(item: Json) -> Any:
    """Returns a value as Python has it: numbers, texts, bytes, lists, dictionaries, and strkeys of addresses.

    A map becomes a dictionary whose keys are plain, if they can be keys, else a list of pairs. Other values stay JSON.
    """
    if isinstance(item, str):
        return None if item == VOID else item
    ((kind, content),) = item.items()
    if kind in TEXT_NUMBERS:
        return int(content)
    if kind == "bytes":
        return bytes.fromhex(content)
    if kind == "string":
        return unescaped(content).decode("utf-8", "replace")
    if kind == "vec":
        return [plain(member) for member in content or []]
    if kind == "map":
        pairs = [(plain(entry["key"]), plain(entry["val"])) for entry in content or []]
        return pairs if any(isinstance(key, (list, dict)) for key, _ in pairs) else dict(pairs)
    return content if kind in (*NUMBERS, "bool", "symbol", "address") else item


# ---- On one line, for people


def line(item: Json, most: int = 400) -> str:
    """Returns a value on one line, as a person would write it."""
    text = whole_line(item)
    return text if len(text) <= most else text[: most - 2] + ".."


def whole_line(item: Json) -> str:
    if isinstance(item, str):
        return item
    ((kind, content),) = item.items()
    if kind == "bool":
        return "true" if content else "false"
    if kind in NUMBERS + TEXT_NUMBERS:
        return f"{content}{'' if kind == 'u32' else '_' + kind}"
    if kind == "bytes":
        return f"0x{content}" if len(content) <= 64 else f"0x{content[:16]}..({len(content) // 2} bytes)"
    if kind == "string":
        return json.dumps(content)
    if kind == "symbol":
        return str(content)
    if kind == "address":
        return strkey.short(content)
    if kind == "vec":
        return "null vec" if content is None else f"[{', '.join(whole_line(member) for member in content)}]"
    if kind == "map":
        return "null map" if content is None else f"{{{members_line(content)}}}"
    if kind == "error":
        ((type_, code),) = content.items()
        return f"error {code} of the contract" if type_ == "contract" else f"error {type_} {code}"
    if kind == "contract_instance":
        return f"instance of {executable_line(content['executable'])} {{{members_line(content['storage'] or [])}}}"
    return f"nonce {content['nonce']}" if kind == "ledger_key_nonce" else json.dumps(item)


def members_line(entries: List[Dict[str, Json]]) -> str:
    return ", ".join(f"{whole_line(entry['key'])}: {whole_line(entry['val'])}" for entry in entries)


def executable_line(executable: Json) -> str:
    return executable if isinstance(executable, str) else f"code {executable['wasm'][:8]}"


# ---- From the words of a command line


def number_of(kind: str) -> Callable[[str], Json]:
    """Returns what makes a number of a kind of a text."""
    return lambda text: {kind: int(text) if kind in NUMBERS else str(int(text))}


PARSED: Dict[str, Callable[[str], Json]] = {
    "bytes": lambda text: {"bytes": bytes.fromhex(text).hex()},
    "symbol": symbol,
    "string": string,
    "address": address,
    "bool": lambda text: {"bool": {"true": True, "false": False}[text]},
    **{kind: number_of(kind) for kind in NUMBERS + TEXT_NUMBERS},
}


def parse(text: str) -> Json:
    """Returns the value of a text such as `u32:5`, `i128:-7`, `symbol:abc`, `bytes:00ff`, `void`, a strkey, or JSON."""
    try:
        made = meant(text)
        schema.write(schema.VALUE, made)
    except (TypeError, ValueError) as error:
        raise ValueError(f"{brief(text)} is no value: {error}") from None
    return made


def meant(text: str) -> Json:
    """Returns what a text means, which may be no value yet."""
    if text[:1] in '{["':
        return value(from_json(text.encode()))
    if text == VOID:
        return VOID
    kind, colon, content = text.partition(":")
    if colon and kind in PARSED:
        try:
            return PARSED[kind](content)
        except (KeyError, ValueError):
            raise ValueError(f"{brief(content)} is no {kind}") from None
    if text[:1] in strkey.VERSIONS and len(text) >= 56:
        return address(text)
    raise ValueError("write TYPE:CONTENT such as u32:5, a strkey, or JSON")
