"""Addresses and keys as text: strkeys (SEP-23)."""
from __future__ import annotations

import base64
import binascii
import struct
from functools import lru_cache

VERSIONS = {
    "G": 6 << 3,  # an account
    "M": 12 << 3,  # a muxed account: its key, then its id
    "C": 2 << 3,  # a contract
    "B": 1 << 3,  # a claimable balance: its type, then its hash
    "L": 11 << 3,  # a liquidity pool
    "S": 18 << 3,  # a secret seed
    "T": 19 << 3,  # the hash of a transaction that is authorised before it is sent
    "X": 23 << 3,  # the hash of a preimage
    "P": 15 << 3,  # a key with a payload that it has to sign
}
SIZES = {"G": 32, "M": 40, "C": 32, "B": 33, "L": 32, "S": 32, "T": 32, "X": 32}


class BadStrkey(ValueError):
    """A text that is no strkey of the wanted kinds."""


def checksum(payload: bytes) -> bytes:
    """Returns the CRC-16 of XMODEM, its low byte first."""
    return struct.pack("<H", binascii.crc_hqx(payload, 0))


@lru_cache(maxsize=4096)
def encode(letter: str, payload: bytes) -> str:
    """Returns the strkey of a payload."""
    versioned = bytes([VERSIONS[letter]]) + payload
    return base64.b32encode(versioned + checksum(versioned)).decode().rstrip("=")


@lru_cache(maxsize=4096)
def decode(text: str, letters: str) -> bytes:
    """Returns the payload of a strkey that begins with one of these letters.

    Raises `BadStrkey` for any other text.
    """
    shown = repr(text[:80])
    if not text or text[0] not in letters:
        raise BadStrkey(f"{shown} does not begin with {' or '.join(letters)}")
    try:
        versioned = base64.b32decode(text + "=" * (-len(text) % 8))
    except ValueError:
        raise BadStrkey(f"{shown} is not base32") from None
    payload = versioned[1:-2]
    if versioned[:1] != bytes([VERSIONS[text[0]]]) or versioned[-2:] != checksum(versioned[:-2]):
        raise BadStrkey(f"{shown} has another checksum")
    if len(payload) != SIZES.get(text[0], len(payload)) or encode(text[0], payload) != text:
        raise BadStrkey(f"{shown} has another length")
    return payload


def short(text: str) -> str:
    """Returns the first and the last characters of a strkey, for people."""
    return text if len(text) < 14 else f"{text[:5]}..{text[-4:]}"
