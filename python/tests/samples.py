"""Samples of each type of the schema: of a union each arm, of a number its bounds, of a text what is markup elsewhere."""
from __future__ import annotations

import itertools
from typing import List

from soroban_files import schema, strkey
from soroban_files.xdr import (
    Boolean,
    Fixed,
    Json,
    Listed,
    Number,
    Opaque,
    Optional_,
    Recursive,
    Strkey,
    Struct,
    Type,
    Union,
)

TEXT = "<b a=\"'&\\x1b[1m"  # as JSON has it: markup, quotes, and an escape sequence of terminals
LEVELS = 3  # of values and invocations


def samples(of: Type, level: int = 0, depth: int = 0) -> List[Json]:
    """Returns values of a type. Each arm of each union below stands in one of them, down to lists of lists.

    `level` counts values in values and invocations in invocations, `depth` lists in lists.
    """
    if isinstance(of, Recursive):
        return samples(of.of, level + 1, depth)
    if isinstance(of, Struct):
        return structures(of, level, depth)
    if isinstance(of, Union):
        return [
            arm if body is None else {arm: value}
            for arm, _, body in of.arms.values()
            for value in ([None] if body is None else samples(body, level, depth))
        ]
    if isinstance(of, schema.LoggedEntry):
        with_ttl = [{**entry, "last_modified_ledger_seq": 0} for entry in samples(of.with_ttl, level, depth)]
        return with_ttl + samples(schema.ENTRY, level, depth)
    if isinstance(of, Optional_):
        return [None, *samples(of.of, level, depth)]
    if isinstance(of, Listed):
        return lists(of, level, depth)
    return plain(of)


def structures(of: Struct, level: int, depth: int) -> List[Json]:
    """Returns structures in which each sample of each field stands once."""
    fields = {name: samples(part, level, depth) for name, _, part in of.fields}
    count = max((len(found) for found in fields.values()), default=1)
    turns = {name: itertools.cycle(found) for name, found in fields.items()}
    return [{name: next(turn) for name, turn in turns.items()} for _ in range(count)]


def lists(of: Listed, level: int, depth: int) -> List[Json]:
    """Returns an empty list, and lists that are not too long with the samples of the item; within lists with a few of them."""
    if level >= LEVELS:
        return [[]]
    items = samples(of.item, level, depth + 1)
    if depth:
        most = 4 if depth == 1 else 2
        items = items[:: max(1, len(items) // most)][:most]
    most = min(of.most, 100)
    return [[], *(items[start : start + most] for start in range(0, len(items), most))]


def plain(of: Type) -> List[Json]:
    """Returns samples of a type without parts."""
    if isinstance(of, Number):
        return [number if of.size == 4 else str(number) for number in (of.least, 7, of.most)]
    if isinstance(of, Boolean):
        return [True, False]
    if isinstance(of, Fixed):
        return [of.to_json(bytes(range(60, 60 + of.size)))]
    if isinstance(of, Opaque):
        return ["", TEXT] if of.text else ["", "00ff3c"]
    if isinstance(of, Strkey):
        return [strkey.encode(letter, payload(letter)) for letter, _ in of.kinds.values()]
    raise TypeError(f"there are no samples of {of.name}")


def payload(letter: str) -> bytes:
    """Returns what a strkey of a letter has: of P a key, and a payload of three bytes."""
    sizes = {"P": bytes(range(32)) + b"\0\0\0\3abc\0", "B": b"\0" + bytes(range(32))}
    return sizes.get(letter, bytes(range(strkey.SIZES.get(letter, 32))))


def report(results: List[Json], successes: List[Json]) -> Json:
    """Returns a report of these results."""
    return [{**pair, "success": success} for pair, success in zip(results, itertools.cycle([None, *successes]))]
