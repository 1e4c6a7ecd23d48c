"""XDR (RFC 4506) as a language of types: each type reads bytes, writes bytes, and says what may stand where.

A type is a value of this module's classes, put together as `schema` does. Its values are those of JSON in the style of SEP-51:
structures are objects, unions are objects with one key or, without a body, a text, numbers of 64 bits and more are texts,
bytes are hex digits. So a type is all that decoding, encoding, JSON and `where` need.

Reading follows docs/FORMATS.md: bytes that spell no value are refused at the first word that no spelling can have there.
"""
from __future__ import annotations

import re
import string
import struct
from typing import Any, Callable, Dict, List, Mapping, NamedTuple, Optional, Tuple
from typing import Union as Union_

from . import strkey

Json = Any
Step = Union_[str, int]  # of a path: what is appended to it, or an index

NO_BOUND = 2**32 - 1
WORD = struct.Struct(">I")


class Item(NamedTuple):
    """What was read of the input, or refused: some bytes at a path."""

    start: int
    size: int  # of what is there
    path: str
    type: "Type"
    role: str
    wanted: int  # the whole size


class Refusal(ValueError):
    """Bytes that spell no value: the offset, the reason, and the item that stands there."""

    def __init__(self, at: int, why: str, item: Optional[Item] = None) -> None:
        super().__init__(f"refused at {at}: {why}")
        self.at = at
        self.why = why
        self.item = item


class Misfit(ValueError):
    """JSON that is no value of the type: the path in it, and what is wrong there."""

    def __init__(self, path: str, fault: str) -> None:
        super().__init__(f"at {path or 'the top'}: {fault}")
        self.path = path
        self.fault = fault


def path_text(steps: List[Step]) -> str:
    """Returns a path as it is shown: `tx.operations[0].body`."""
    return "".join(step if isinstance(step, str) else f"[{step}]" for step in steps).lstrip(".")


class Cursor:
    """Reads items from bytes, one after another. `watched` becomes the item that holds the offset `watch`."""

    def __init__(self, data: bytes, watch: int = -1) -> None:
        self.data = data
        self.place = 0
        self.steps: List[Step] = []
        self.levels: Dict[Type, int] = {}
        self.watch = watch
        self.watched: Optional[Item] = None

    def take(self, size: int, of: "Type", role: str = "") -> bytes:
        """Returns the next bytes, or refuses the end of the input."""
        start = self.place
        if start + size > len(self.data):
            raise Refusal(
                len(self.data), "end", Item(start, len(self.data) - start, path_text(self.steps), of, role, size)
            )
        self.place = start + size
        if start <= self.watch < self.place:
            self.watched = Item(start, size, path_text(self.steps), of, role, size)
        return self.data[start : self.place]

    def word(self, of: "Type", role: str = "") -> int:
        """Returns the next 4 bytes as a number."""
        start = self.place
        if start + 4 > len(self.data) or start <= self.watch < start + 4:
            return int.from_bytes(self.take(4, of, role), "big")
        self.place = start + 4
        number: int = WORD.unpack_from(self.data, start)[0]
        return number

    def refuse(self, at: int, why: str, of: "Type", role: str = "") -> Refusal:
        """Returns the refusal of the word at an offset."""
        return Refusal(at, why, Item(at, 4, path_text(self.steps), of, role, 4))

    def finish(self) -> None:
        """Refuses bytes that are left."""
        if self.place < len(self.data):
            left = len(self.data) - self.place
            raise Refusal(self.place, "trailing", Item(self.place, left, "", TRAILING, "", 0))


class Writer:
    """Collects the bytes of items, and knows the path of the one that is written."""

    def __init__(self) -> None:
        self.parts: List[bytes] = []
        self.steps: List[Step] = []
        self.levels: Dict[Type, int] = {}

    def put(self, data: bytes) -> None:
        self.parts.append(data)

    def word(self, number: int) -> None:
        self.parts.append(WORD.pack(number))

    def misfit(self, fault: str) -> Misfit:
        """Returns the error for the value at the current path."""
        return Misfit(path_text(self.steps), fault)


class Type:
    """A type of XDR. `read` and `write` are each other's inverse."""

    name = ""

    def read(self, cursor: Cursor) -> Json:
        """Returns the value at the cursor, or raises `Refusal`."""
        raise NotImplementedError

    def write(self, out: Writer, value: Json) -> None:
        """Writes a value, or raises `Misfit`."""
        raise NotImplementedError

    def expects(self, role: str) -> str:
        """Says what may stand at an item of this type."""
        raise NotImplementedError


class Trailing(Type):
    """What stands behind a whole value: nothing may."""

    name = "the end"

    def expects(self, role: str) -> str:
        return "nothing: the value ends here"


TRAILING = Trailing()


# ---- Numbers

DECIMAL = re.compile("-?[0-9]{1,80}")


class Number(Type):
    """A number of whole words in two's complement, its highest byte first. In JSON, one of more than 4 bytes is a text."""

    def __init__(self, name: str, size: int, signed: bool) -> None:
        self.name, self.size, self.signed = name, size, signed
        self.least = -(1 << 8 * size - 1) if signed else 0
        self.most = self.least + (1 << 8 * size) - 1

    def read(self, cursor: Cursor) -> Json:
        number = int.from_bytes(cursor.take(self.size, self), "big", signed=self.signed)
        return number if self.size == 4 else str(number)

    def write(self, out: Writer, value: Json) -> None:
        number = value
        if isinstance(value, str) and self.size > 4:
            if not DECIMAL.fullmatch(value):
                raise out.misfit(f"{brief(value)} is no number")
            number = int(value)
        if isinstance(number, bool) or not isinstance(number, int) or not self.least <= number <= self.most:
            raise out.misfit(f"{brief(value)} is no number from {self.least} to {self.most}")
        out.put(number.to_bytes(self.size, "big", signed=self.signed))

    def expects(self, role: str) -> str:
        return f"{self.name}: a number from {self.least} to {self.most}"


class Boolean(Type):
    """A word that is 0 or 1."""

    name = "bool"

    def read(self, cursor: Cursor) -> Json:
        number = cursor.word(self)
        if number > 1:
            raise cursor.refuse(cursor.place - 4, "bool", self)
        return number == 1

    def write(self, out: Writer, value: Json) -> None:
        if not isinstance(value, bool):
            raise out.misfit(f"{brief(value)} is neither true nor false")
        out.word(int(value))

    def expects(self, role: str) -> str:
        return "bool: 0 (false) or 1 (true)"


# ---- Bytes


def hex_bytes(out: Writer, value: Json) -> bytes:
    """Returns the bytes of hex digits, two for each byte."""
    if not isinstance(value, str) or len(value) % 2 or value.strip(string.hexdigits):
        raise out.misfit(f"{brief(value)} is not hex digits, two for each byte")
    return bytes.fromhex(value)


class Fixed(Type):
    """As many bytes as the type says, which are whole words. In JSON, hex digits or what `to_json` makes of them."""

    def __init__(
        self,
        name: str,
        size: int,
        to_json: Callable[[bytes], str] = bytes.hex,
        from_json: Optional[Callable[[str], bytes]] = None,
    ) -> None:
        self.name, self.size, self.to_json, self.from_json = name, size, to_json, from_json

    def read(self, cursor: Cursor) -> Json:
        return self.to_json(cursor.take(self.size, self))

    def write(self, out: Writer, value: Json) -> None:
        data = hex_bytes(out, value) if self.from_json is None else as_bytes(out, self.from_json, value)
        if len(data) != self.size:
            raise out.misfit(f"{brief(value)} has {len(data)} bytes and not {self.size}")
        out.put(data)

    def expects(self, role: str) -> str:
        return f"{self.name}: any {self.size} bytes"


def as_bytes(out: Writer, convert: Callable[[str], bytes], value: Json) -> bytes:
    """Returns what `convert` makes of a text of JSON."""
    if not isinstance(value, str):
        raise out.misfit(f"{brief(value)} is no text")
    try:
        return convert(value)
    except ValueError as error:
        raise out.misfit(str(error)) from None


class Opaque(Type):
    """A length, as many bytes, and zeros up to a whole word. In JSON, hex digits, or a text with escapes if `text`."""

    def __init__(self, name: str, most: int = NO_BOUND, text: bool = False) -> None:
        self.name, self.most, self.text = name, most, text

    def read_bytes(self, cursor: Cursor) -> bytes:
        size = cursor.word(self, "length")
        if size > self.most:
            raise cursor.refuse(cursor.place - 4, "limit", self, "length")
        start, fill = cursor.place, -size % 4
        data = cursor.take(size + fill, self, "bytes")
        if any(data[size:]):
            raise cursor.refuse(start + size // 4 * 4, "padding", self, "padding")
        return data[:size]

    def read(self, cursor: Cursor) -> Json:
        data = self.read_bytes(cursor)
        return escaped(data) if self.text else data.hex()

    def write(self, out: Writer, value: Json) -> None:
        data = as_bytes(out, unescaped, value) if self.text else hex_bytes(out, value)
        if len(data) > self.most:
            raise out.misfit(f"it has {len(data)} bytes, and at most {self.most} are allowed")
        out.word(len(data))
        out.put(data + bytes(-len(data) % 4))

    def expects(self, role: str) -> str:
        if role == "length":
            return f"{self.name}: a length" + ("" if self.most == NO_BOUND else f" of at most {self.most}")
        if role == "padding":
            return f"{self.name}: its last bytes, and zeros up to a whole word"
        return f"{self.name}: any bytes"


ESCAPES = {0: "\\0", 9: "\\t", 10: "\\n", 13: "\\r", 92: "\\\\"}
TEXTS = {byte: ESCAPES.get(byte) or (chr(byte) if 32 <= byte < 127 else f"\\x{byte:02x}") for byte in range(256)}
UNESCAPES = {text[1]: byte for byte, text in ESCAPES.items()}


def escaped(data: bytes) -> str:
    """Returns bytes as a text: ASCII as it is, other bytes as `\\xNN` (SEP-51)."""
    return data.decode("latin-1").translate(TEXTS)


def unescaped(text: str) -> bytes:
    """Returns the bytes of a text with escapes."""
    out, pieces = bytearray(), iter(text.split("\\"))
    out += next(pieces).encode()
    for piece in pieces:
        if not piece:  # an escaped backslash: what follows is plain
            plain = next(pieces, None)
            if plain is None:
                raise ValueError("a backslash at the end escapes nothing")
            out += b"\\" + plain.encode()
        elif piece[0] == "x":
            if len(piece) < 3 or piece[1:3].strip(string.hexdigits):
                raise ValueError(f"the escape \\{piece[:3]} is not \\x and two hex digits")
            out += bytes.fromhex(piece[1:3]) + piece[3:].encode()
        elif piece[0] in UNESCAPES:
            out += bytes([UNESCAPES[piece[0]]]) + piece[1:].encode()
        else:
            raise ValueError(f"there is no escape \\{piece[0]}")
    return bytes(out)


# ---- Structures, lists, optional data


class Struct(Type):
    """Fields, one after another."""

    def __init__(self, name: str, **fields: Type) -> None:
        self.name = name
        self.fields = [(field, "." + field, of) for field, of in fields.items()]

    def read(self, cursor: Cursor) -> Json:
        value, steps = {}, cursor.steps
        for field, step, of in self.fields:
            steps.append(step)
            value[field] = of.read(cursor)
            steps.pop()
        return value

    def write(self, out: Writer, value: Json) -> None:
        if not isinstance(value, dict):
            raise out.misfit(f"{brief(value)} is no object with the fields of {self.name}")
        unknown = set(value) - {field for field, _, _ in self.fields}
        if unknown:
            raise out.misfit(f"{self.name} has no field {brief(sorted(unknown)[0])}")
        for field, step, of in self.fields:
            out.steps.append(step)
            if field not in value:
                raise out.misfit(f"the field of {self.name} is missing")
            of.write(out, value[field])
            out.steps.pop()

    def expects(self, role: str) -> str:
        return f"{self.name}: an object"


class Listed(Type):
    """A count of at most `most`, and as many items. In a recursive type `within`, the last level has none."""

    def __init__(self, name: str, item: Type, most: int = NO_BOUND, within: Optional["Recursive"] = None) -> None:
        self.name, self.item, self.most, self.within = name, item, most, within

    def read(self, cursor: Cursor) -> Json:
        count = cursor.word(self, "count")
        if count > self.most:
            raise cursor.refuse(cursor.place - 4, "limit", self, "count")
        if self.within is not None and count and cursor.levels[self.within] >= self.within.most:
            raise cursor.refuse(cursor.place - 4, "depth", self, "last count")
        return self.read_items(cursor, count)

    def read_items(self, cursor: Cursor, count: int) -> List[Json]:
        items, steps, item = [], cursor.steps, self.item
        for index in range(count):
            steps.append(index)
            items.append(item.read(cursor))
            steps.pop()
        return items

    def write(self, out: Writer, value: Json) -> None:
        if not isinstance(value, list):
            raise out.misfit(f"{brief(value)} is no list")
        if len(value) > self.most:
            raise out.misfit(f"it has {len(value)} items, and at most {self.most} are allowed")
        if self.within is not None and value and out.levels[self.within] >= self.within.most:
            raise out.misfit(f"it is below {self.within.most} levels, and has to be empty")
        out.word(len(value))
        for index, item in enumerate(value):
            out.steps.append(index)
            self.item.write(out, item)
            out.steps.pop()

    def expects(self, role: str) -> str:
        if role == "last count":
            return f"{self.name}: 0, as it stands at the last of {self.within.most if self.within else 0} levels"
        return f"{self.name}: a count" + ("" if self.most == NO_BOUND else f" of at most {self.most}")


class Optional_(Type):
    """A bool, and a value if it is 1. In JSON, the value or null."""

    def __init__(self, of: Type) -> None:
        self.of = of
        self.name = f"{of.name} or nothing"

    def read(self, cursor: Cursor) -> Json:
        number = cursor.word(self)
        if number > 1:
            raise cursor.refuse(cursor.place - 4, "bool", self)
        return self.of.read(cursor) if number else None

    def write(self, out: Writer, value: Json) -> None:
        out.word(0 if value is None else 1)
        if value is not None:
            self.of.write(out, value)

    def expects(self, role: str) -> str:
        return f"{self.name}: 0 (nothing) or 1 (a value follows)"


# ---- Unions, enumerations, recursion


class Union(Type):
    """The number of an arm, and the arm's body. An arm without a body is a text in JSON."""

    def __init__(self, name: str, arms: Mapping[int, Tuple[str, Optional[Type]]]) -> None:
        self.name = name
        self.arms: Dict[int, Tuple[str, str, Optional[Type]]] = {}
        self.words: Dict[str, Tuple[int, Optional[Type]]] = {}
        for number, (arm, body) in arms.items():
            self.add(number, arm, body)

    def add(self, number: int, arm: str, body: Optional[Type]) -> None:
        """Adds an arm; recursive types get theirs so."""
        self.arms[number % 2**32] = (arm, "." + arm, body)
        self.words[arm] = (number % 2**32, body)

    def read(self, cursor: Cursor) -> Json:
        word = cursor.word(self, "number")
        if word not in self.arms:
            raise cursor.refuse(cursor.place - 4, "tag", self, "number")
        arm, step, body = self.arms[word]
        if body is None:
            return arm
        cursor.steps.append(step)
        value = {arm: body.read(cursor)}
        cursor.steps.pop()
        return value

    def write(self, out: Writer, value: Json) -> None:
        arm = (
            value
            if isinstance(value, str)
            else next(iter(value))
            if isinstance(value, dict) and len(value) == 1
            else None
        )
        if arm not in self.words:
            raise out.misfit(f"{brief(value)} is none of {self.name}: {', '.join(self.words)}")
        word, body = self.words[arm]
        if (body is None) != isinstance(value, str):
            raise out.misfit(f"{arm} of {self.name} has {'no' if body is None else 'a'} body")
        out.word(word)
        if body is not None:
            out.steps.append("." + arm)
            body.write(out, value[arm])
            out.steps.pop()

    def expects(self, role: str) -> str:
        numbers = sorted((word - 2**32 if word >= 2**31 else word, arm[0]) for word, arm in self.arms.items())
        return f"{self.name}: " + ", ".join(f"{number} {arm}" for number, arm in numbers)


def enumeration(name: str, *words: str) -> Union:
    """Returns the enumeration of these words, from 0 on."""
    return Union(name, {number: (word, None) for number, word in enumerate(words)})


class Recursive(Type):
    """A type that holds itself, with at most `most` levels. The lists `within` it count them."""

    def __init__(self, name: str, most: int) -> None:
        self.name, self.most = name, most
        self.of: Type = TRAILING

    def read(self, cursor: Cursor) -> Json:
        cursor.levels[self] = cursor.levels.get(self, 0) + 1
        value = self.of.read(cursor)
        cursor.levels[self] -= 1
        return value

    def write(self, out: Writer, value: Json) -> None:
        out.levels[self] = out.levels.get(self, 0) + 1
        self.of.write(out, value)
        out.levels[self] -= 1

    def expects(self, role: str) -> str:
        return self.of.expects(role)


# ---- Strkeys


class Strkey(Type):
    """Keys and addresses: the number of a kind, and bytes, which are a strkey in JSON.

    `kinds` has, for each number, a letter and the parts in their order in XDR. A part is another number that has to follow,
    or `id`, `key` or `payload`.
    """

    def __init__(self, name: str, kinds: Dict[int, Tuple[str, Tuple[Any, ...]]]) -> None:
        self.name, self.kinds = name, kinds
        self.letters = {letter: (number, parts) for number, (letter, parts) in kinds.items()}

    def read(self, cursor: Cursor) -> Json:
        number = cursor.word(self, "number")
        if number not in self.kinds:
            raise cursor.refuse(cursor.place - 4, "tag", self, "number")
        letter, parts = self.kinds[number]
        return strkey.encode(letter, self.read_parts(cursor, letter, parts))

    def read_parts(self, cursor: Cursor, letter: str, parts: Tuple[Any, ...]) -> bytes:
        key = tail = b""
        for part in parts:
            if part == "key":
                key = cursor.take(32, self, "key")
            elif part == "id":
                tail = cursor.take(8, self, "id")
            elif part == "payload":
                data = PAYLOAD.read_bytes(cursor)
                tail = struct.pack(">I", len(data)) + data + bytes(-len(data) % 4)
            elif cursor.word(self, "zero") != part:
                raise cursor.refuse(cursor.place - 4, "tag", self, "zero")
        return (b"\0" if letter == "B" else b"") + key + tail

    def write(self, out: Writer, value: Json) -> None:
        payload = as_bytes(out, lambda text: strkey.decode(text, "".join(self.letters)), value)
        number, parts = self.letters[value[0]]
        if value[0] == "B":
            if payload[0]:
                raise out.misfit(f"{value!r} is a claimable balance of another type")
            payload = payload[1:]
        out.word(number)
        for part in parts:
            if part == "payload":
                PAYLOAD.write(out, signed_payload(out, payload[32:]).hex())
            elif part == "key":
                out.put(payload[:32])
            elif part == "id":
                out.put(payload[32:])
            else:
                out.word(part)

    def expects(self, role: str) -> str:
        if role == "number":
            return f"{self.name}: " + ", ".join(
                f"{number} ({letter}..)" for number, (letter, _) in sorted(self.kinds.items())
            )
        return f"{self.name}: " + {"zero": "0", "key": "any 32 bytes", "id": "any 8 bytes, an id"}[role]


PAYLOAD = Opaque("signed payload", 64)


def signed_payload(out: Writer, spelled: bytes) -> bytes:
    """Returns the payload that a strkey with P spells behind the key."""
    try:
        data = Opaque.read_bytes(PAYLOAD, Cursor(spelled))
    except Refusal:
        raise out.misfit("the payload in the strkey has another length") from None
    if 4 + len(data) + -len(data) % 4 != len(spelled):
        raise out.misfit("the payload in the strkey has another length")
    return data


def brief(value: Json) -> str:
    """Returns a value of JSON as a short text for messages."""
    text = repr(value)
    return text if len(text) <= 60 else text[:57] + "..."
