"""Files to JSON and back: what `decode` and `encode` do."""
from __future__ import annotations

import base64
import binascii
import json
from typing import Dict, List, Tuple

from . import ledgers, schema
from .xdr import Json, brief


class NotJson(ValueError):
    """Text that is no JSON of RFC 8259, nests too deep for a file, or has a name twice in an object."""


class NotBase64(ValueError):
    """Text that is no base64 of RFC 4648 with its padding."""


def from_base64(text: bytes) -> bytes:
    """Returns the bytes of a text; one newline at its end is dropped."""
    if text.endswith(b"\n"):
        text = text[:-1]
    try:
        data = base64.b64decode(text, validate=True)
    except (binascii.Error, ValueError):
        raise NotBase64("not base64") from None
    if base64.b64encode(data) != text:
        raise NotBase64("not base64")
    return data


def from_json(text: bytes) -> Json:
    """Returns what JSON in UTF-8 means. Raises `NotJson`."""
    try:
        return json.loads(text.decode(), object_pairs_hook=object_of)
    except RecursionError:
        raise NotJson("not JSON of a file: it nests too deep") from None
    except NotJson:
        raise
    except ValueError as error:
        raise NotJson(f"not JSON: {error}") from None


def object_of(pairs: List[Tuple[str, Json]]) -> Dict[str, Json]:
    """Returns an object of JSON, whose names have to differ."""
    found = dict(pairs)
    if len(found) < len(pairs):
        names = [name for name, _ in pairs]
        twice = next(name for name in names if names.count(name) > 1)
        raise NotJson(f"not JSON of a file: the name {brief(twice)} stands twice in an object")
    return found


def decode(kind: str, data: bytes, checked: bool = True) -> Json:
    """Returns the JSON of a file.

    `kind` is a name of `schema.KINDS`. Bytes that the program refuses are refused here: a ledger by `LedgerRefusal`, all other
    kinds by `Refusal`. Without `checked`, a ledger only has to be spelled well.
    """
    if kind == "ledger":
        return ledgers.read(data, checked=checked)
    return schema.read(schema.KINDS[kind], data)


def encode(kind: str, value: Json, checked: bool = True) -> bytes:
    """Returns the file of a value of JSON. Raises `Misfit` or `LedgerRefusal` if the program would refuse the file."""
    data = schema.write(schema.KINDS[kind], value)
    if kind == "ledger" and checked:
        ledgers.check(value)
    return data
