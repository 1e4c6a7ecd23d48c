"""A page (HTML) of a closed ledger: its stages and clusters, transactions, authorisation trees, results, events and changes.

The page is one file without any other resource. It follows the reader's light or dark theme.
"""
from __future__ import annotations

from typing import Dict, Optional

from .. import ledgers, schema
from ..xdr import Json
from .page import render
from .view import closed_ledger


def page(
    before: bytes,
    tx_set: bytes,
    report: bytes,
    after: bytes,
    theme: str = "",
    names: Optional[Dict[str, str]] = None,
    log: Optional[bytes] = None,
) -> str:
    """Returns the page of four files: the ledger before, the set, the report, and the ledger after; `log` is a change log."""
    found = (
        ledgers.read(before),
        schema.read(schema.SET, tx_set),
        schema.read(schema.REPORT, report),
        ledgers.read(after),
    )
    return page_of(*found, theme, names, None if log is None else schema.read(schema.LOG, log))


def page_of(
    before: Json,
    tx_set: Json,
    report: Json,
    after: Json,
    theme: str = "",
    names: Optional[Dict[str, str]] = None,
    log: Optional[Json] = None,
) -> str:
    """Returns the page of four files as JSON. Raises `ValueError` if a file does not belong to the others.

    `theme` is `light` or `dark`; by default the reader's own. `names` has what to call addresses, by their strkeys. With the
    change log, the page shows what each transaction and each end of a stage changed. Raises `Unfit` if the log does not fit.
    """
    return render(closed_ledger(before, tx_set, report, after, log), theme, names)
