"""The files of the contract host, for people and for tests of contracts.

`decode` and `encode` go between files and JSON. `wallet` makes and signs envelopes, `world` runs a ledger over the built
program, `where` explains a refusal, `lint` a module, and `explore` draws a closed ledger. docs/TOOLS.md has examples.
"""
from .files import decode, encode
from .ledgers import LedgerRefusal
from .xdr import Misfit, Refusal

__all__ = ["LedgerRefusal", "Misfit", "Refusal", "decode", "encode"]
__version__ = "1.0.0"
