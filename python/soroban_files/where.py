"""Explains an offset of a file: the path in the type at which it stands, what is there, and what could stand there."""
from __future__ import annotations

from typing import Iterator, List, NamedTuple, Optional

from . import ledgers, schema, values
from .xdr import Cursor, Item, Json, Number, Refusal, Strkey, Union


class Place(NamedTuple):
    """What stands at an offset."""

    offset: int
    refusal: Optional[Refusal]  # that of the file, wherever it is
    item: Optional[Item]  # the item that holds the offset, if the file was read so far
    there: bytes
    value: Json  # of the file, if it is not refused

    @property
    def is_refused(self) -> bool:
        """Whether the file is refused at this offset."""
        return self.refusal is not None and self.refusal.at == self.offset


def where(kind: str, data: bytes, offset: int) -> Place:
    """Returns what stands at a byte offset of a file or a part."""
    if offset < 0:
        raise ValueError(f"{offset} is no offset: they count from 0")
    cursor, refusal, value = Cursor(data, watch=offset), None, None
    try:
        value = schema.KINDS[kind].read(cursor)
        cursor.finish()
    except Refusal as error:
        refusal = error
    item = refusal.item if refusal and refusal.at == offset else cursor.watched
    there = data[item.start : item.start + item.size] if item else b""
    return Place(offset, refusal, item, there, value)


def meaning(item: Item, there: bytes) -> str:
    """Says what the bytes of an item mean, as far as they mean anything."""
    number = int.from_bytes(there, "big")
    if len(there) < item.wanted or not there:
        return ""
    if isinstance(item.type, Union):
        return f"{number} {item.type.arms[number][0]}" if number in item.type.arms else signed(number)
    if isinstance(item.type, Number):
        return str(int.from_bytes(there, "big", signed=item.type.signed))
    if item.role in ("bytes", "key", "padding") or (len(there) > 8):
        return ""
    if isinstance(item.type, Strkey) and item.role == "number" and number in item.type.kinds:
        return f"{number} ({item.type.kinds[number][0]}..)"
    return str(number) if len(there) in (4, 8) else ""


def signed(word: int) -> str:
    """Returns a word as a number; great ones also as the negative number that they may mean."""
    return f"{word} or {word - 2**32}" if word >= 2**31 else str(word)


def lines(kind: str, data: bytes, offset: int) -> List[str]:
    """Returns the explanation for people."""
    place = where(kind, data, offset)
    refusal = place.refusal
    judged = refused_line(kind, refusal) if refusal else "it is valid"
    said = [f"{kind} of {len(data)} bytes: {judged}"]
    if kind == "ledger" and refusal is None:
        said = list(judged_lines(data, place.value))
    if place.item is None:
        unread = "nothing is known of what stands behind that"
        behind = unread if refusal and offset > refusal.at else "the offset is behind its end"
        return said + [f"  offset {offset}: {behind}"]
    item = place.item
    there = place.there.hex() or "nothing: the input ends"
    shown = there if len(there) <= 64 else f"{there[:56]}.. ({len(place.there)} bytes)"
    means = meaning(item, place.there)
    role = f" (its {item.role})" if item.role else ""
    said.append(f"  path     {item.path or '(the whole)'}{role}, from offset {item.start} on")
    said.append(f"  there    {shown}{' = ' + means if means else ''}")
    said.append(f"  allowed  {item.type.expects(item.role)}")
    if place.is_refused and refusal and refusal.why == "end":
        left = len(data) - item.start
        said.append(f"  missing  the item has {item.wanted} bytes, and {left} {'is' if left == 1 else 'are'} left")
    return said


def refused_line(kind: str, refusal: Refusal) -> str:
    """Returns a refusal as the program says it of this kind of file, with the reason."""
    said = {kind: f"{kind} refused at {refusal.at}" for kind in ("verdicts", "schedule")}
    said["ledger"] = f"ledger refused: 1 at {refusal.at}"
    return f"{said[kind]}: {refusal.why}" if kind in said else str(refusal)


# ---- Ledgers, which are also refused by their header and by record


def judged_lines(data: bytes, ledger: Json) -> Iterator[str]:
    """Yields the refusal of a ledger that is spelled well, and what is out of bounds in its header."""
    try:
        ledgers.check(ledger)
        yield f"ledger of {len(data)} bytes: it is valid"
    except ledgers.LedgerRefusal as refusal:
        yield f"ledger of {len(data)} bytes: {refusal}: {refusal.why}"
        if refusal.number == 5:
            for path, number, bounds in ledgers.out_of_bounds(ledger):
                yield f"  bounds   {next(iter(ledger))}.{path} is {number}; allowed are {bounds}"
        else:
            yield f"  record   --record {refusal.at} says more"


def record_lines(data: bytes, index: int) -> List[str]:
    """Explains `ledger refused: 2 at INDEX`: the record, its key, and what is wrong with it."""
    try:
        ledger = ledgers.read(data, checked=False)
    except ledgers.LedgerRefusal as refusal:
        return lines("ledger", data, refusal.at)
    records = ledgers.body(ledger)["records"]
    if not 0 <= index < len(records):
        return [f"ledger of {len(records)} records: there is no record {index}"]
    record = records[index]
    before = ledgers.key_bytes(records[index - 1]["entry"]) if index else b""
    fault = ledgers.fault_of(before, ledgers.key_bytes(record["entry"]), record)
    said = [f"record {index} of {len(records)}: {ledgers.REASONS[fault] if fault else 'it is valid'}"]
    said.append(
        f"  path     {next(iter(ledger))}.records[{index}], from offset {record_offset(data, records, index)} on"
    )
    said.append(f"  key      {key_line(ledgers.key_of(record['entry']))}")
    said += [f"  {name:<8} {text}" for name, text in fault_parts(fault, before, record)]
    return said


def record_offset(data: bytes, records: List[Json], index: int) -> int:
    """Returns the offset at which a record begins: the records stand at the end of the file."""
    return len(data) - sum(len(schema.write(schema.RECORD, record)) for record in records[index:])


def fault_parts(fault: int, before: bytes, record: Json) -> List[List[str]]:
    """Returns what stands against what at a fault of a record."""
    if fault == 2:
        return [["after", key_line(schema.read(schema.KEY, before))]]
    if fault == 3:
        return [["there", record["ttl"]["key_hash"]], ["allowed", ledgers.key_hash(ledgers.key_of(record["entry"]))]]
    if fault == 4:
        code = record["entry"]["data"]["contract_code"]
        return [["there", code["hash"]], ["allowed", ledgers.sha256(bytes.fromhex(code["code"]))]]
    return []


def key_line(key: Json) -> str:
    """Returns a ledger key on one line."""
    ((kind, fields),) = key.items()
    if kind == "contract_data":
        return f"{values.line({'address': fields['contract']})} {fields['durability']} {values.line(fields['key'])}"
    if kind == "contract_code":
        return f"code {fields['hash'][:16]}.."
    return f"{kind} " + " ".join(value if isinstance(value, str) else str(value) for value in fields.values())
