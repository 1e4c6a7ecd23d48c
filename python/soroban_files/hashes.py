"""The hashes of transactions, payloads and contracts (docs/FORMATS.md, Transactions): each a SHA-256, here as hex digits."""
from __future__ import annotations

import hashlib
import struct

from . import schema, strkey
from .xdr import Json

ENVELOPE_TYPE_TX = 2
ENVELOPE_TYPE_TX_FEE_BUMP = 5
ENVELOPE_TYPE_CONTRACT_ID = 8
ENVELOPE_TYPE_SOROBAN_AUTHORIZATION = 9


def sha256(*parts: bytes) -> str:
    """Returns the hash of items, one after the other."""
    return hashlib.sha256(b"".join(parts)).hexdigest()


def word(number: int) -> bytes:
    return struct.pack(">I", number)


def transaction_hash(network: str, transaction: Json) -> str:
    """Returns what the signatures of a transaction sign."""
    return sha256(bytes.fromhex(network), word(ENVELOPE_TYPE_TX), schema.write(schema.TRANSACTION, transaction))


def fee_bump_hash(network: str, fee_bump: Json) -> str:
    """Returns what the signatures of a fee bump sign."""
    return sha256(bytes.fromhex(network), word(ENVELOPE_TYPE_TX_FEE_BUMP), schema.write(schema.FEE_BUMP, fee_bump))


def envelope_hash(network: str, envelope: Json) -> str:
    """Returns the hash under which a report names an envelope."""
    if "tx" in envelope:
        return transaction_hash(network, envelope["tx"]["tx"])
    return fee_bump_hash(network, envelope["tx_fee_bump"]["tx"])


def payload_hash(network: str, auth: Json) -> str:
    """Returns what the address of an authorisation entry signs. Neither the address nor the signature is part of it."""
    credentials = auth["credentials"]["address"]
    return sha256(
        word(ENVELOPE_TYPE_SOROBAN_AUTHORIZATION),
        bytes.fromhex(network),
        schema.write(schema.I64, credentials["nonce"]),
        schema.write(schema.U32, credentials["signature_expiration_ledger"]),
        schema.write(schema.INVOCATION, auth["root_invocation"]),
    )


def contract_id(network: str, preimage: Json) -> str:
    """Returns the address of the contract that a create with this preimage makes."""
    digest = sha256(word(ENVELOPE_TYPE_CONTRACT_ID), bytes.fromhex(network), schema.write(schema.PREIMAGE, preimage))
    return strkey.encode("C", bytes.fromhex(digest))


def network_id(passphrase: str) -> str:
    """Returns the id of the network with a passphrase."""
    return sha256(passphrase.encode())
