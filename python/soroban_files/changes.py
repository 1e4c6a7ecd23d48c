"""What each transaction and each end of a stage changed, by a change log (docs/FORMATS.md, The change log's file)."""
from __future__ import annotations

from typing import Dict, List, NamedTuple, Optional, Sequence, Tuple

from . import diff, ledgers
from .xdr import Json

Records = Dict[bytes, Json]  # of a ledger, by their keys' bytes


class Unfit(ValueError):
    """A log that does not fit its ledgers or its set: where, as `play` of the program says it, and why."""

    def __init__(self, at: str, why: str) -> None:
        super().__init__(f"log does not fit: {at}")
        self.why = why


class Stage(NamedTuple):
    """What a stage changed: each of its transactions in the order of the set, and its end."""

    transactions: List[diff.Difference]
    end: diff.Difference


class Group(NamedTuple):
    """What a log says of one entry: its record before and after. A record that is not there is None."""

    before: Optional[Json]
    after: Optional[Json]


def stages(log: Json, before: Json, after: Json, sizes: Sequence[int]) -> List[Stage]:
    """Returns what each stage of a log changed.

    `sizes` has the number of transactions of each stage of the set. Raises `Unfit` if the log is of another set, or if it does
    not lead from the ledger before to the ledger after.
    """
    check_header(log, before, after)
    check_sizes(log, sizes)
    records = ledgers.entries(before)
    found = []
    for number, stage in enumerate(log["stages"]):
        lists = [
            played(records, changes, f"stage {number}, place {place}")
            for place, changes in enumerate([*stage["transactions"], stage["end"]])
        ]
        found.append(Stage(lists[:-1], lists[-1]))
    if records != ledgers.entries(after):
        raise Unfit("next ledger", "the log leads to other entries than those of the ledger after")
    return found


# ---- The header, stages and transactions


def check_header(log: Json, before: Json, after: Json) -> None:
    """Raises `Unfit` unless the log is between ledgers of these numbers and close times."""
    said = [(log["old_seq"], log["old_close_time"]), (log["old_seq"] + 1, log["new_close_time"])]
    given = [(fields["seq"], fields["close_time"]) for fields in map(ledgers.body, (before, after))]
    if said != given:
        raise Unfit("header", f"it leads from {between(*said)}; these are {between(*given)}")


def between(old: Tuple[int, str], new: Tuple[int, str]) -> str:
    return f"ledger {old[0]} closed at {old[1]} to ledger {new[0]} closed at {new[1]}"


def check_sizes(log: Json, sizes: Sequence[int]) -> None:
    """Raises `Unfit` unless the log has the stages of the set, and each of them its transactions."""
    said = [len(stage["transactions"]) for stage in log["stages"]]
    if len(said) != len(sizes):
        raise Unfit("stages", f"the log has {len(said)}, the set {len(sizes)}")
    for number, (logged, sent) in enumerate(zip(said, sizes)):
        if logged != sent:
            raise Unfit(f"stage {number}", f"the log has {logged} of its transactions, the set {sent}")


# ---- Lists of changes


def played(records: Records, changes: List[Json], at: str) -> diff.Difference:
    """Makes the changes of a list, and returns them as a difference. Raises `Unfit` with this place if they do not fit."""
    old: Records = {}
    new: Records = {}
    last = b""
    for group in map(group_of, split(changes)):
        if group is None:
            raise Unfit(at, "its changes make up no groups of whole entries")
        key = ledgers.key_bytes(one_of(group)["entry"])
        if key <= last:
            raise Unfit(at, "a key does not come after the key before it")
        if records.pop(key, None) != group.before:
            raise Unfit(at, "the ledger has another entry there, or none")
        if group.before:
            old[key] = group.before
        if group.after:
            new[key] = records[key] = group.after
        last = key
    return diff.of_records(old, new)


def one_of(group: Group) -> Json:
    """Returns a record of a group: the one before, or else the one after."""
    return group.before or group.after


def split(changes: List[Json]) -> List[List[Json]]:
    """Returns the changes of each group: a group begins with an entry that is created, or with the state of one."""
    found: List[List[Json]] = []
    for change in changes:
        ((kind, content),) = change.items()
        is_first = kind in ("created", "state") and "ttl" not in content["data"]
        if is_first or not found:
            found.append([])
        found[-1].append(change)
    return found


def group_of(changes: List[Json]) -> Optional[Group]:
    """Returns the group that has exactly these changes, if there is one."""
    entries: Dict[str, List[Json]] = {"created": [], "updated": [], "removed": [], "state": []}
    for change in changes:
        ((kind, content),) = change.items()
        entries[kind].append(content)
    before = with_entries(None, entries["state"])
    after = None if entries["removed"] else with_entries(before, entries["created"] + entries["updated"])
    found = Group(before, after)
    is_one = all(map(is_record, filter(None, found))) and changes_of(found) == changes and before != after
    return found if is_one else None


def with_entries(record: Optional[Json], entries: List[Json]) -> Optional[Json]:
    """Returns a record, or the parts of one, with these entries of a log in their places."""
    made = dict(record or {})
    for entry in entries:
        ttl = entry["data"].get("ttl")
        made.update({"ttl": ttl} if ttl else {"entry": entry})
    return made or None


def is_record(record: Json) -> bool:
    """Says whether a record has an entry and its TTL, and the right hashes."""
    if set(record) != {"entry", "ttl"}:
        return False
    return not ledgers.fault_of(b"", ledgers.key_bytes(record["entry"]), record)


def changes_of(group: Group) -> List[Json]:
    """Returns the changes of a group, in their order; none if its two records have different keys."""
    before, after = (entries_of(record) if record else [] for record in group)
    if not before:
        return [{"created": entry} for entry in after]
    states = [{"state": entry} for entry in before]
    if not after:
        return states + [{"removed": key} for key in keys_of(group.before)]
    if keys_of(group.before) != keys_of(group.after):
        return []
    return states + [{"updated": new} for old, new in zip(before, after) if old != new]


def entries_of(record: Json) -> List[Json]:
    """Returns the entry and the TTL entry of a record, as a log has them."""
    return [record["entry"], {"last_modified_ledger_seq": 0, "data": {"ttl": record["ttl"]}, "ext": "v0"}]


def keys_of(record: Json) -> List[Json]:
    """Returns the keys of a record's entry and of its TTL entry."""
    return [ledgers.key_of(record["entry"]), {"ttl": {"key_hash": record["ttl"]["key_hash"]}}]
