"""What the page shows of a closed ledger, apart from how it looks."""
from __future__ import annotations

from typing import Dict, List, NamedTuple, Optional, Set, Tuple

from .. import changes, diff, envelopes, hashes, ledgers, results, schema
from ..results import Event
from ..xdr import Json


class Transaction(NamedTuple):
    """A transaction in its place, with what became of it."""

    stage: int
    cluster: int
    number: int
    hash: str
    envelope: Json
    outcome: str  # success, or the word of the failure
    value: Optional[Json]
    events: List[Event]
    made: List[Json]  # ledger keys that it declares read-write, and that changed
    changes: Optional[diff.Difference] = None  # what it changed, if there is a change log

    @property
    def ok(self) -> bool:
        return self.outcome == "success"

    @property
    def inner(self) -> Json:
        """The transaction that runs."""
        return envelopes.transaction_of(self.envelope)

    @property
    def payer(self) -> Optional[str]:
        """Who pays for a fee bump."""
        return self.envelope["tx_fee_bump"]["tx"]["fee_source"] if "tx_fee_bump" in self.envelope else None

    @property
    def body(self) -> Json:
        """The body of the first operation, or an empty object."""
        operations = self.inner["operations"]
        return operations[0]["body"] if operations else {}

    @property
    def source(self) -> str:
        """The source of the operation."""
        operations = self.inner["operations"]
        own = operations[0]["source_account"] if operations else None
        return str(own or self.inner["source_account"])

    @property
    def resources(self) -> Optional[Json]:
        """What it declares, if anything."""
        ext = self.inner["ext"]
        return ext["v1"]["resources"] if isinstance(ext, dict) else None

    @property
    def anchor(self) -> str:
        return f"t{self.stage}-{self.cluster}-{self.number}"


class ClosedLedger(NamedTuple):
    """A closed ledger."""

    before: Json
    after: Json
    stages: List[List[List[Transaction]]]
    difference: diff.Difference
    ends: Optional[List[diff.Difference]] = None  # what the end of each stage changed, if there is a change log

    @property
    def transactions(self) -> List[Transaction]:
        return [transaction for stage in self.stages for cluster in stage for transaction in cluster]


def closed_ledger(before: Json, tx_set: Json, report: Json, after: Json, log: Optional[Json] = None) -> ClosedLedger:
    """Returns the view of four files, and of a change log if there is one.

    Raises `ValueError` if the second ledger does not follow the first one or the report is not that of the set, and `Unfit` if
    the log does not fit.
    """
    due, number = ledgers.body(before)["seq"] + 1, ledgers.body(after)["seq"]
    if log is None and number != due:
        raise ValueError(f"the ledger after has the number {number}, and {due} is due")
    network = ledgers.body(before)["network_id"]
    difference = diff.difference(before, after)
    changed = keys_changed(difference)
    left = iter(report)
    stages = [
        [
            [
                transaction(network, (stage, cluster, number), envelope, next(left, None), changed)
                for number, envelope in enumerate(sent)
            ]
            for cluster, sent in enumerate(clusters)
        ]
        for stage, clusters in enumerate(envelopes.stages_of(tx_set))
    ]
    if next(left, None) is not None:
        raise ValueError("the report has more results than the set has transactions")
    closed = ClosedLedger(before, after, stages, difference)
    return closed if log is None else with_log(closed, log)


def with_log(closed: ClosedLedger, log: Json) -> ClosedLedger:
    """Returns a closed ledger with what a log says of its transactions and stages. Raises `Unfit` if the log does not fit."""
    sizes = [sum(map(len, clusters)) for clusters in closed.stages]
    logged = changes.stages(log, closed.before, closed.after, sizes)
    stages = []
    for clusters, said in zip(closed.stages, logged):
        left = iter(said.transactions)
        stages.append([[changing(transaction, next(left)) for transaction in cluster] for cluster in clusters])
    return closed._replace(stages=stages, ends=[said.end for said in logged])


def changing(transaction: Transaction, found: diff.Difference) -> Transaction:
    """Returns a transaction with what it changed itself."""
    return transaction._replace(changes=found, made=written(transaction.envelope, keys_changed(found)))


def transaction(
    network: str, place: Tuple[int, int, int], envelope: Json, pair: Optional[Json], changed: Set[bytes]
) -> Transaction:
    """Returns the view of a transaction and its result."""
    digest = hashes.envelope_hash(network, envelope)
    if pair is None or pair["transaction_hash"] != digest:
        raise ValueError(f"the report is of another set: it has no result for {digest} at its place")
    success = pair["success"]
    value = success["return_value"] if success else None
    word = results.word(pair["result"])
    events = results.events(success)
    made = written(envelope, changed) if word == "success" else []
    return Transaction(*place, digest, envelope, word, value, events, made)


def written(envelope: Json, changed: Set[bytes]) -> List[Json]:
    """Returns those of the keys that changed which an envelope declares read-write."""
    ext = envelopes.transaction_of(envelope)["ext"]
    keys = ext["v1"]["resources"]["footprint"]["read_write"] if isinstance(ext, dict) else []
    return [key for key in keys if schema.write(schema.KEY, key) in changed]


def keys_changed(difference: diff.Difference) -> Set[bytes]:
    """Returns the keys of entries that were made, changed or removed."""
    keys = [change.key for change in difference.changed]
    keys += [ledgers.key_of(record["entry"]) for record in difference.made + difference.gone]
    return {schema.write(schema.KEY, key) for key in keys}


def outcomes(closed: ClosedLedger) -> Dict[str, int]:
    """Returns how many transactions ended how."""
    counts: Dict[str, int] = {}
    for found in closed.transactions:
        counts[found.outcome] = counts.get(found.outcome, 0) + 1
    return counts
