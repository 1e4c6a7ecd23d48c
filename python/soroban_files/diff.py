"""What changed from one ledger to another: the header, entries made, gone and changed, and lives."""
from __future__ import annotations

from typing import Any, Dict, Iterator, List, NamedTuple, Sequence

from . import ledgers, schema, values
from .where import key_line
from .xdr import Json


class Field(NamedTuple):
    """A field that changed. An absent one is None."""

    path: str
    before: Json
    after: Json


class Change(NamedTuple):
    """An entry that changed: its key, and its fields that did."""

    key: Json
    fields: List[Field]


class Life(NamedTuple):
    """An entry whose live-until ledger changed."""

    key: Json
    before: int
    after: int


class Difference(NamedTuple):
    """What changed. `made` and `gone` are records."""

    header: List[Field]
    made: List[Json]
    gone: List[Json]
    changed: List[Change]
    lives: List[Life]


def difference(before: Json, after: Json) -> Difference:
    """Returns what changed between two ledgers; entries come in the order of their keys' bytes."""
    header = plain_fields(without_records(before), without_records(after), "")
    return of_records(ledgers.entries(before), ledgers.entries(after), list(header))


def of_records(old: Dict[bytes, Json], new: Dict[bytes, Json], header: Sequence[Field] = ()) -> Difference:
    """Returns what changed between records by their keys' bytes, with these changes of the header."""
    both = [(old[key], new[key]) for key in sorted(old.keys() & new.keys())]
    pairs = [(a["entry"], b["entry"]) for a, b in both if a["entry"] != b["entry"]]
    changed = [Change(ledgers.key_of(entry), list(entry_fields(earlier, entry))) for earlier, entry in pairs]
    lives = [
        Life(ledgers.key_of(b["entry"]), a["ttl"]["live_until_ledger_seq"], b["ttl"]["live_until_ledger_seq"])
        for a, b in both
        if a["ttl"] != b["ttl"]
    ]
    made = [new[key] for key in sorted(new.keys() - old.keys())]
    gone = [old[key] for key in sorted(old.keys() - new.keys())]
    return Difference(list(header), made, gone, changed, lives)


def without_records(ledger: Json) -> Json:
    """Returns the header of a ledger, with its protocol also of version 1."""
    fields = {**ledgers.body(ledger), "protocol": ledgers.protocol(ledger)}
    del fields["records"]
    return fields


def plain_fields(before: Json, after: Json, path: str) -> Iterator[Field]:
    """Yields the fields of objects that differ."""
    if isinstance(before, dict) and isinstance(after, dict):
        for name in sorted({**before, **after}):
            yield from plain_fields(before.get(name), after.get(name), f"{path}.{name}" if path else name)
    elif before != after:
        yield Field(path, before, after)


def entry_fields(before: Json, after: Json) -> Iterator[Field]:
    """Yields the fields of an entry that differ; of values the parts that do."""
    ((kind, old),) = before["data"].items()
    new = after["data"][kind]
    if kind == "contract_data":
        yield from value_fields(old["val"], new["val"], "val")
    else:
        yield from plain_fields(old, new, kind)
    if before["last_modified_ledger_seq"] != after["last_modified_ledger_seq"]:
        yield Field("last_modified_ledger_seq", before["last_modified_ledger_seq"], after["last_modified_ledger_seq"])


def value_fields(before: Json, after: Json, path: str) -> Iterator[Field]:
    """Yields the parts of values that differ: members of maps, items of vecs of one length, storage of instances."""
    if before == after:
        return
    kinds = [next(iter(value)) if isinstance(value, dict) else value for value in (before, after)]
    old, new = (value[kind] if isinstance(value, dict) else None for value, kind in zip((before, after), kinds))
    if kinds == ["map", "map"] and old is not None and new is not None:
        yield from member_fields(old, new, path)
    elif kinds == ["vec", "vec"] and old is not None and new is not None and len(old) == len(new):
        for index, (one, other) in enumerate(zip(old, new)):
            yield from value_fields(one, other, f"{path}[{index}]")
    elif kinds == ["contract_instance", "contract_instance"]:
        if old["executable"] != new["executable"]:
            yield Field("executable", old["executable"], new["executable"])
        yield from member_fields(old["storage"] or [], new["storage"] or [], "storage")
    else:
        yield Field(path, before, after)


def member_fields(before: List[Dict[str, Json]], after: List[Dict[str, Json]], path: str) -> Iterator[Field]:
    """Yields the members of maps that differ."""
    old, new = ({spelled(pair["key"]): pair for pair in pairs} for pairs in (before, after))
    for key, pair in {**old, **new}.items():
        name = f"{path}.{values.line(pair['key'])}"
        if key in old and key in new:
            yield from value_fields(old[key]["val"], new[key]["val"], name)
        else:
            yield Field(name, old[key]["val"] if key in old else None, new[key]["val"] if key in new else None)


def spelled(key: Json) -> bytes:
    """Returns the bytes of a map's key: keys that look alike on a line may differ."""
    return schema.write(schema.VALUE, key)


# ---- For people


def shown(value: Any) -> str:
    """Returns a field's content on one line."""
    if value is None:
        return "nothing"
    is_value = value == values.VOID or isinstance(value, dict) and next(iter(value)) not in ("wasm", "stellar_asset")
    if is_value:
        return values.line(value)
    return values.executable_line(value) if isinstance(value, dict) else short_text(str(value))


def short_text(text: str) -> str:
    return text if len(text) <= 80 else f"{text[:64]}.. ({len(text)} characters)"


def entry_line(record: Json) -> str:
    """Returns the content of an entry on one line."""
    ((kind, fields),) = record["entry"]["data"].items()
    return values.line(fields["val"]) if kind == "contract_data" else f"{len(fields['code']) // 2} bytes"


def entry_lines(record: Json, sign: str) -> str:
    key = key_line(ledgers.key_of(record["entry"]))
    return f"{sign} {key} = {entry_line(record)}, live until {record['ttl']['live_until_ledger_seq']}"


def lines(found: Difference) -> List[str]:
    """Returns a difference for people: `+` made, `-` gone, `~` changed, `t` another life."""
    said = [f"{field.path}: {shown(field.before)} -> {shown(field.after)}" for field in found.header]
    said += [entry_lines(record, "+") for record in found.made]
    said += [entry_lines(record, "-") for record in found.gone]
    for change in found.changed:
        said.append(f"~ {key_line(change.key)}")
        said += [f"    {field.path}: {shown(field.before)} -> {shown(field.after)}" for field in change.fields]
    said += [f"t {key_line(life.key)}: live until {life.before} -> {life.after}" for life in found.lives]
    return said or ["the ledgers are equal"]


def as_json(found: Difference) -> Json:
    """Returns a difference as JSON."""
    return {
        "header": [field._asdict() for field in found.header],
        "made": found.made,
        "gone": found.gone,
        "changed": [
            {"key": change.key, "fields": [field._asdict() for field in change.fields]} for change in found.changed
        ],
        "lives": [life._asdict() for life in found.lives],
    }
