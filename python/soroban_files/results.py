"""Reads results of transactions: whether one succeeded, and the word that says how it ended."""
from __future__ import annotations

from typing import List, NamedTuple, Optional

from . import values
from .xdr import Json


def inner(result: Json) -> Json:
    """Returns the result of the transaction itself: of a fee bump that of the inner one."""
    code = result["result"]
    if isinstance(code, dict):
        for kind in ("tx_fee_bump_inner_success", "tx_fee_bump_inner_failed"):
            if kind in code:
                return code[kind]["result"]
    return result


def word(result: Json) -> str:
    """Returns how a transaction ended: `success`, or the code of its operation such as `trapped`, or its own as `tx_too_late`."""
    code = inner(result)["result"]
    if isinstance(code, str):
        return code
    kind: str
    ((kind, operations),) = code.items()
    for operation in operations:
        body = operation if isinstance(operation, str) else next(iter(operation["op_inner"].values()))
        if isinstance(body, str) and body != "success":
            return body
    return "success" if kind == "tx_success" else kind


class Event(NamedTuple):
    """An event: the contract's address, the topics and the data, as JSON of values."""

    contract: Optional[str]
    topics: List[Json]
    data: Json

    @classmethod
    def of(cls, event: Json) -> "Event":
        body = event["body"]["v0"]
        return cls(event["contract_id"], body["topics"], body["data"])

    @property
    def plain(self) -> List[object]:
        """The topics and the data, as Python has them."""
        return [*map(values.plain, self.topics), values.plain(self.data)]

    @property
    def line(self) -> str:
        """The topics and the data on one line."""
        return f"[{', '.join(map(values.line, self.topics))}] {values.line(self.data)}"


def events(success: Optional[Json]) -> List[Event]:
    """Returns the events of a success preimage, if there is one."""
    return [Event.of(event) for event in success["events"]] if success else []
