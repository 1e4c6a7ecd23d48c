"""The page itself: HTML of the view."""
from __future__ import annotations

import base64
import hashlib
import itertools
import os
from datetime import datetime, timedelta
from typing import Dict, Iterator, List, Optional, Tuple

from .. import ledgers, results, values
from ..diff import Change, Difference, Field
from ..xdr import Json
from .shown import (
    code,
    executable,
    function,
    inner_value,
    key,
    named,
    parts,
    short,
    span,
    tag,
    text,
    together,
    value,
    who,
)
from .shown import whole as as_value
from .view import ClosedLedger, Transaction, outcomes

FOLDER = os.path.dirname(os.path.abspath(__file__))
# What stands on a page at most; of what is left out it says how much.
MOST_CARDS = 500
MOST_SQUARES = 200  # of a cluster, in the map
MANY = 400  # from so many transactions on, the squares of the map are small
MOST_ROWS = 2000
MOST_PEOPLE = 300
MOST_KEYS = 100  # of a footprint
MOST_EVENTS = 50  # of a transaction
MOST_CHANGES = 100  # of a transaction, and of the end of a stage
MOST_OWN_ROWS = 10_000  # of all transactions and ends of stages; each one shows at least FEW_CHANGES
FEW_CHANGES = 10
LONG_CONTENT = 6000  # characters of HTML; longer contents of entries have a box that scrolls


def render(closed: ClosedLedger, theme: str = "", names: Optional[Dict[str, str]] = None) -> str:
    """Returns the page. `names` has what to call addresses."""
    with named(names or {}):
        return whole(closed, theme)


def whole(closed: ClosedLedger, theme: str) -> str:
    after = ledgers.body(closed.after)
    title = f"Ledger {after['seq']:,}"
    pieces = [
        heading(closed, title),
        facts(closed),
        map_of(closed),
        *stages(closed),
        changes(closed),
        people(closed),
        footer(closed),
    ]
    script = resource("page.js")
    head = (
        f'<meta charset="utf-8"><meta http-equiv="Content-Security-Policy" content="{policy(script)}">'
        '<meta name="viewport" content="width=device-width, initial-scale=1">'
        f"<title>{text(title)}</title><style>{resource('page.css')}</style>"
    )
    attributes = f' data-theme="{text(theme)}"' if theme else ""
    body = f"<main>{''.join(pieces)}</main><script>{script}</script>"
    return f'<!doctype html><html lang="en"{attributes}><head>{head}</head><body>{body}</body></html>\n'


def policy(script: str) -> str:
    """Returns what a browser may do for the page: run this script alone, and load nothing."""
    digest = base64.b64encode(hashlib.sha256(script.encode()).digest()).decode()
    return f"default-src 'none'; style-src 'unsafe-inline'; script-src 'sha256-{digest}'"


def resource(name: str) -> str:
    with open(os.path.join(FOLDER, name), encoding="utf-8") as file:
        return file.read()


# ---- The top


def heading(closed: ClosedLedger, title: str) -> str:
    after = ledgers.body(closed.after)
    time = moment(int(after["close_time"]))
    network = tag("span", text(f"{after['network_id'][:12]}.."), class_="mono", title=after["network_id"])
    said = tag("p", f"closed {text(time)} on network {network}, protocol {ledgers.protocol(closed.after)}")
    buttons = (
        tag("button", "open all", id="all", type="button")
        + " "
        + tag("button", "light / dark", id="theme", type="button")
    )
    return tag("header", tag("div", tag("h1", text(title)), said), tag("div", buttons))


def moment(seconds: int) -> str:
    """Returns a close time as a date in UTC; times beyond the calendar as a number."""
    try:
        return (datetime(1970, 1, 1) + timedelta(seconds=seconds)).strftime("%d %B %Y, %H:%M:%S UTC").lstrip("0")
    except OverflowError:
        return f"at {seconds}"


def facts(closed: ClosedLedger) -> str:
    before, after = ledgers.body(closed.before), ledgers.body(closed.after)
    sent, found = closed.transactions, closed.difference
    good = sum(transaction.ok for transaction in sent)
    elapsed = int(after["close_time"]) - int(before["close_time"])
    rows: List[Tuple[str, str]] = [
        (f"{good} of {len(sent)}", "transactions succeeded"),
        (str(len(closed.stages)), plural(len(closed.stages), "stage")),
        (str(sum(len(transaction.events) for transaction in sent)), "events"),
        (f"+{len(found.made):,} ~{len(found.changed):,} −{len(found.gone):,}", "entries made, changed, gone"),
        (f"{len(after['records']):,}", "entries in the ledger"),
        (f"{elapsed:+,} s", "since the ledger before"),
    ]
    return tag("ul", *(tag("li", tag("b", text(number)), span("", said)) for number, said in rows), class_="facts")


def plural(count: int, word: str) -> str:
    return word if count == 1 else word + "s"


def map_of(closed: ClosedLedger) -> str:
    """Returns a small picture of the set: stages in their order, a row for each cluster, a square for each transaction."""
    boxes, kind = [], "map" if len(closed.transactions) < MANY else "map many"
    for number, clusters in enumerate(closed.stages):
        rows = (squares(index, cluster) for index, cluster in enumerate(clusters[:MOST_SQUARES]))
        boxes.append(tag("section", tag("h3", f"stage {number}"), *rows))
    return tag("div", tag("span", "→", class_="arrow").join(boxes), class_=kind)


def squares(index: int, cluster: List[Transaction]) -> str:
    left = len(cluster) - MOST_SQUARES
    more = span("type", f"and {left:,} more") if left > 0 else ""
    return tag("div", *map(square, cluster[:MOST_SQUARES]), more, title=f"cluster {index}")


def square(transaction: Transaction) -> str:
    said = f"transaction {transaction.number} of cluster {transaction.cluster}: {words(transaction.outcome)}"
    return tag("a", href=f"#{transaction.anchor}", class_=None if transaction.ok else "bad", title=said)


def words(name: str) -> str:
    """Returns the word of an outcome as words."""
    return name.replace("_", " ")


# ---- Stages, clusters and transactions


def stages(closed: ClosedLedger) -> Iterator[str]:
    counts = sorted(outcomes(closed).items(), key=lambda item: -item[1])
    said = ", ".join(f"{count} {words(outcome)}" for outcome, count in counts) or "none"
    yield tag("h2", "Transactions", tag("small", text(said)))
    left, most = MOST_CARDS, most_changes(closed)
    for number, clusters in enumerate(closed.stages):
        boxes = []
        for index, cluster in enumerate(clusters[:MOST_SQUARES]):
            boxes.append(cluster_box(index, cluster, max(left, 0), most))
            left -= len(cluster)
        said = f"{len(clusters):,} {plural(len(clusters), 'cluster')}" + (" side by side" if len(clusters) > 1 else "")
        title = tag("h3", f"Stage {number}", tag("small", said))
        content = tag("div", *boxes, class_="clusters") if boxes else tag("p", "no cluster", class_="empty")
        end = end_box(closed.ends[number], most) if closed.ends else ""
        yield tag("section", title, content, left_out(len(clusters) - len(boxes)), end, class_="stage")


def most_changes(closed: ClosedLedger) -> int:
    """Returns how many changes each transaction and each end of a stage shows: the fewer, the more of them there are."""
    cards = min(len(closed.transactions), MOST_CARDS) + len(closed.stages)
    return max(FEW_CHANGES, min(MOST_CHANGES, MOST_OWN_ROWS // max(cards, 1)))


def cluster_box(index: int, cluster: List[Transaction], most: int, most_rows: int) -> str:
    title = tag("h4", f"cluster {index} · {len(cluster):,} {plural(len(cluster), 'transaction')}")
    cards = (card(transaction, most_rows) for transaction in cluster[:most])
    return tag("div", title, *cards, left_out(len(cluster) - most), class_="cluster")


def end_box(found: Difference, most: int) -> str:
    """Returns what the end of a stage changed: the lives of entries whose extensions were pending."""
    title = tag("h4", f"end of the stage · {change_count(found)}", title=END)
    return tag("div", title, own_changes(found, most) if row_count(found) else "", class_="end")


def card(transaction: Transaction, most_rows: int) -> str:
    bad = "" if transaction.ok else " bad"
    pills = [tag("span", text(words(transaction.outcome)), class_="pill" + bad)]
    if transaction.payer:
        pills.insert(
            0, tag("span", f"fee bump by {text(short(transaction.payer))}", class_="pill note", title=transaction.payer)
        )
    source = tag("span", "from ", who(transaction.inner["source_account"]))
    top = tag("div", source, tag("span", " ".join(pills)), class_="top")
    counted = "" if transaction.changes is None else f"{change_count(transaction.changes)}, "
    more = tag("div", f"{counted}footprint, limits, hash", class_="more")
    summary = tag("summary", top, tag("div", doing(transaction), class_="call"), *happened(transaction), more)
    inside = tag("div", *parts_of(transaction, most_rows), class_="inside")
    return tag("details", summary, inside, class_="tx" + bad, id=transaction.anchor)


def doing(transaction: Transaction) -> str:
    """Returns what a transaction does, in one line."""
    if not transaction.body:
        return span("empty", "no operation")
    ((kind, fields),) = transaction.body.items()
    if kind == "invoke_host_function":
        return function(fields["host_function"])
    footprint = transaction.resources["footprint"] if transaction.resources else {"read_only": [], "read_write": []}
    count = len(footprint["read_only"]) + len(footprint["read_write"])
    entries = f"{count} {'entry' if count == 1 else 'entries'}"
    if kind == "extend_footprint_ttl":
        return f"{tag('b', 'extend')} {entries} to live for {fields['extend_to']:,} ledgers"
    return f"{tag('b', 'restore')} {entries}"


def happened(transaction: Transaction) -> Iterator[str]:
    """Yields who authorised what, the value that a call returned, and its events."""
    for given in transaction.body.get("invoke_host_function", {}).get("auth", []):
        yield tag("div", span("", "auth"), tag("div", entry(given, transaction)), class_="result")
    if transaction.value not in (None, values.VOID):
        yield tag("div", span("", "returns"), value(transaction.value), class_="result")
    for event in transaction.events[:MOST_EVENTS]:
        yield tag("div", span("", "event"), event_html(event), class_="result")
    yield left_out(len(transaction.events) - MOST_EVENTS)


def event_html(event: results.Event) -> str:
    def shown() -> str:
        topics = " ".join(parts(event.topics, inner_value))
        data = "" if event.data == values.VOID else " " + together(span("punct", "→ "), inner_value(event.data))
        return (who(event.contract) + " " if event.contract else "") + topics + data

    return as_value(shown)


def parts_of(transaction: Transaction, most_rows: int) -> Iterator[str]:
    """Yields what a card shows only when it is open."""
    if transaction.changes is not None:
        yield tag("h5", "Changes") + remark(transaction, transaction.changes) + own_changes(transaction.changes, most_rows)
    if transaction.resources:
        yield tag("h5", "Footprint") + footprint(transaction)
        yield tag("h5", "Limits") + limits(transaction.resources)
    rows = [("hash", span("mono", transaction.hash)), ("sequence", text(f"{int(transaction.inner['seq_num']):,}"))]
    if transaction.source != transaction.inner["source_account"]:
        rows.append(("source of the operation", who(transaction.source)))
    rows += [(name, span("mono", content)) for name, content in conditions(transaction.inner)]
    yield tag("h5", "Transaction") + tag(
        "ul", *(tag("li", span("field", name), shown) for name, shown in rows), class_="plain"
    )


def entry(given: Json, transaction: Transaction) -> str:
    """Returns an authorisation entry: who signs, and the tree. A root that is the transaction's own call is not repeated."""
    credentials, root = given["credentials"], given["root_invocation"]
    called = next(iter(transaction.body["invoke_host_function"]["host_function"].values()))
    is_own = called == next(iter(root["function"].values()))
    nodes = root["sub_invocations"] if is_own else [root]
    what = ("the call, and below it" if nodes else "the call") if is_own else "this tree"
    if credentials == "source_account":
        signer, terms = f"{who(transaction.source)} authorises {what}", "as the source of the operation"
    else:
        fields = credentials["address"]
        signer = f"{who(fields['address'])} signs {what}"
        terms = f"nonce {fields['nonce']}, until ledger {fields['signature_expiration_ledger']:,}"
    tree = tag("ul", *map(node, nodes), class_="tree") if nodes else ""
    return tag("div", signer, class_="signer") + tree + tag("div", text(terms), class_="terms")


def node(invocation: Json) -> str:
    below = invocation["sub_invocations"]
    return tag("li", function(invocation["function"]), tag("ul", *map(node, below)) if below else "")


def footprint(transaction: Transaction) -> str:
    keys = transaction.resources["footprint"] if transaction.resources else {}
    rows = []
    for mode, said in (("read_write", "writes"), ("read_only", "reads")):
        for declared in keys.get(mode, []):
            changed = tag("span", "changed", class_="pill note") if declared in transaction.made else ""
            rows.append(tag("li", span("field", said), key(declared), " ", changed))
    if not rows:
        return span("empty", "empty")
    return tag("ul", *rows[:MOST_KEYS], class_="plain") + left_out(len(rows) - MOST_KEYS)


def limits(resources: Json) -> str:
    numbers = (("instructions", "instructions"), ("disk_read_bytes", "bytes read"), ("write_bytes", "bytes written"))
    shown = (f"{span('number', f'{resources[name]:,}')} {said}" for name, said in numbers)
    return tag("ul", tag("li", ", ".join(shown)), class_="plain")


def conditions(transaction: Json) -> Iterator[Tuple[str, str]]:
    """Yields the memo and the preconditions, if there are any."""
    if transaction["memo"] != "none":
        ((kind, content),) = transaction["memo"].items()
        yield f"memo ({kind})", content
    if transaction["cond"] != "none":
        ((kind, content),) = transaction["cond"].items()
        for name, bound in content.items():
            if isinstance(bound, dict):
                yield words(name), ", ".join(f"{words(part)} {number}" for part, number in bound.items())
            elif bound not in (None, [], "0", 0):
                yield words(name), str(bound)


# ---- What changed


def changes(closed: ClosedLedger) -> str:
    count = row_count(closed.difference)
    if not count:
        return tag("h2", "What changed") + tag("p", "No entry changed.", class_="empty")
    head = tag("tr", tag("th", ""), tag("th", "entry"), tag("th", "content"))
    title = tag("h2", "What changed", tag("small", f"from the ledger before to this one, {count:,} {plural(count, 'line')}"))
    return title + table(closed.difference, MOST_ROWS, head)


def own_changes(found: Difference, most: int) -> str:
    """Returns what a transaction or the end of a stage changed."""
    return table(found, most) if row_count(found) else tag("p", "No entry changed.", class_="empty")


# When extensions take effect, for readers of a log.
END = "Extensions that are still pending are put in at the end of the stage."
PENDING = (
    "An extension is pending until the end of the stage, or until a later transaction of the cluster declares its key"
    " read-write."
)
PUT_IN = "Extensions of earlier transactions were put in before this one ran. It changed nothing itself."


def remark(transaction: Transaction, found: Difference) -> str:
    """Returns a sentence where changes may surprise: of an extension that changes nothing yet, and of a failure with lives."""
    if found.lives and row_count(found) == len(found.lives) and not transaction.ok:
        return tag("p", PUT_IN, class_="remark")
    if not row_count(found) and transaction.ok and "extend_footprint_ttl" in transaction.body:
        return tag("p", PENDING, class_="remark")
    return ""


def change_count(found: Difference) -> str:
    count = row_count(found)
    return f"{count:,} {plural(count, 'change')}" if count else "no change"


def row_count(found: Difference) -> int:
    return len(found.made) + len(found.changed) + len(found.gone) + len(found.lives)


def table(found: Difference, most: int, head: str = "") -> str:
    """Returns a table of what changed, with so many rows at most."""
    return tag("table", head, *itertools.islice(rows(found), most)) + left_out(row_count(found) - most)


def rows(found: Difference) -> Iterator[str]:
    """Yields a row for each entry that was made, that changed, or that is gone, and for each life that changed."""
    for record in found.made:
        yield row("made", "", ledgers.key_of(record["entry"]), made(record))
    for change in found.changed:
        yield row("changed", " note", change.key, changed_fields(change))
    for record in found.gone:
        yield row("gone", " bad", ledgers.key_of(record["entry"]), made(record, "from"))
    moved = {str(change.key) for change in found.changed}
    for life in found.lives:
        kind = "life" if str(life.key) not in moved else "and its life"
        yield row(kind, " warn", life.key, f"live until {life.before:,}{arrow()}{life.after:,}")


def left_out(count: int) -> str:
    """Says how much the page leaves out."""
    return tag("p", f"and {count:,} more, which this page leaves out", class_="empty") if count > 0 else ""


def row(said: str, kind: str, entry_key: Json, content: str) -> str:
    pill = tag("span", said, class_="pill" + kind)
    boxed = tag("div", content, class_="box") if len(content) > LONG_CONTENT else content
    return tag("tr", tag("td", pill, class_="sign"), tag("td", key(entry_key), class_="key"), tag("td", boxed))


def made(record: Json, kind: str = "") -> str:
    ((of, fields),) = record["entry"]["data"].items()
    shown = value(fields["val"]) if of == "contract_data" else f"a module of {len(fields['code']) // 2:,} bytes"
    until = span("type", f" live until {record['ttl']['live_until_ledger_seq']:,}")
    return tag("span", shown, class_=kind or None) + until


def arrow() -> str:
    return span("arrow", "→")


def changed_fields(change: Change) -> str:
    shown = [field for field in change.fields if field.path != "last_modified_ledger_seq"]
    if not shown:
        return span("empty", "written again, with the same content")
    return "<br>".join(field_html(field) for field in shown)


def field_html(field: Field) -> str:
    name = "" if field.path == "val" else span("field", field.path[4:] if field.path.startswith("val.") else field.path)
    before = tag("span", field_value(field.path, field.before), class_="from")
    return f"{name}{before}{arrow()}{field_value(field.path, field.after)}"


def field_value(path: str, content: Json) -> str:
    if content is None:
        return span("none", "nothing")
    if path == "executable":
        return executable(content)
    if path.startswith("contract_code"):
        return code(content)
    return value(content)


# ---- Who is who


def people(closed: ClosedLedger) -> str:
    """Returns the accounts and contracts of the set, with their whole addresses."""
    found = sorted(set(addresses([transaction.envelope for transaction in closed.transactions])))
    if not found:
        return ""
    found.sort(key=lambda address: (address[0] != "C", short(address).lower()))
    items = (tag("li", who(address), " ", tag("code", text(address))) for address in found[:MOST_PEOPLE])
    return tag("h2", "Who is who") + tag("ul", *items, class_="people") + left_out(len(found) - MOST_PEOPLE)


def addresses(content: Json) -> Iterator[str]:
    """Yields all accounts and contracts in JSON."""
    if isinstance(content, dict):
        for name, part in content.items():
            named = name in ("address", "contract", "contract_address", "source_account", "fee_source") and isinstance(
                part, str
            )
            if named and part[:1] in "GC" and len(part) == 56:
                yield part
            else:
                yield from addresses(part)
    elif isinstance(content, list):
        for part in content:
            yield from addresses(part)


def footer(closed: ClosedLedger) -> str:
    left = "the report and the ledger after" if closed.ends is None else "the report, the ledger after and the change log"
    return tag("footer", f"Made by soroban-files explore of the ledger before, the set, {left}.")
