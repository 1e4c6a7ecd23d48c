"""Values, addresses and keys as HTML."""
from __future__ import annotations

import html
import itertools
import json
import zlib
from contextlib import contextmanager
from typing import Any, Callable, Dict, Iterator, List

from .. import strkey, values
from ..xdr import Json

LONG_BYTES = 40
LONG_TEXT = 200
LONG_NUMBER = 20  # digits; a longer one may be cut into lines
MOST_MEMBERS = 40  # of a vec or a map
MOST_PARTS = 300  # of a value, with all that is nested in it
NAMES: Dict[str, str] = {}  # what to call addresses, while a page is made


class Room:
    """How many more members of the value that is being shown have room."""

    left = MOST_PARTS

    @classmethod
    def taken(cls) -> bool:
        """Takes room for a member, if there is any."""
        cls.left -= 1
        return cls.left >= 0


@contextmanager
def named(names: Dict[str, str]) -> Iterator[None]:
    """Calls addresses by these names while a page is made."""
    NAMES.update(names)
    try:
        yield
    finally:
        NAMES.clear()


def short(address: str) -> str:
    """Returns the name of an address, or its first and last characters."""
    return NAMES.get(address) or strkey.short(address)


def text(content: Any) -> str:
    """Returns text in which nothing is markup."""
    return html.escape(str(content), quote=True)


def tag(name: str, *inner: str, **attributes: Any) -> str:
    """Returns an element. `class_` is the attribute class; attributes that are None are left out."""
    given = "".join(f' {key.rstrip("_")}="{text(value)}"' for key, value in attributes.items() if value is not None)
    return f"<{name}{given}>{''.join(inner)}</{name}>"


def span(kind: str, content: Any) -> str:
    return tag("span", text(content), class_=kind)


def who(address: str) -> str:
    """Returns an address: short, in a colour of its own, and whole as its title."""
    kind = {"C": " contract", "L": " contract", "B": " contract"}.get(address[:1], "")
    hue = zlib.crc32(address.encode()) % 360
    return tag("span", text(short(address)), class_="who" + kind, style=f"--hue:{hue}", title=address)


def value(item: Json) -> str:
    """Returns a value of a contract, in the colours of its types."""
    return whole(lambda: inner_value(item))


def whole(shown: Callable[[], str]) -> str:
    """Returns what `shown` makes of a value, or of several that stand together, with room for its members."""
    Room.left = MOST_PARTS
    return tag("span", shown(), class_="value")


def inner_value(item: Json) -> str:
    if isinstance(item, str):
        return span("none", {"ledger_key_contract_instance": "instance"}.get(item, item))
    ((kind, content),) = item.items()
    if kind == "address":
        return who(content)
    if kind == "vec":
        return span("none", "null vec") if content is None else listed("[", parts(content, inner_value), "]")
    if kind == "map":
        return span("none", "null map") if content is None else members(content)
    if kind in values.NUMBERS + values.TEXT_NUMBERS:
        type_ = "" if kind == "u32" else span("type", f" {kind}")
        return tag("span", number(int(content)), type_, class_=None if is_long(content) else "numeral")
    if kind == "contract_instance":
        return tag("span", "instance of ", executable(content["executable"]), " ", members(content["storage"] or []))
    if kind == "bytes":
        return hex_digits(content)
    if kind == "string":
        return string(content)
    if kind == "bool":
        return span("number", "true" if content else "false")
    return span("error" if kind == "error" else "symbol", values.line(item))


def is_long(content: Any) -> bool:
    return len(str(content)) > LONG_NUMBER


def number(content: int) -> str:
    """Returns a number with commas. A long one may be cut into lines behind a comma."""
    digits = f"{content:,}"
    return tag("span", digits.replace(",", ",<wbr>") if is_long(content) else digits, class_="number")


def hex_digits(content: str) -> str:
    """Returns bytes, cut if they are long."""
    size = len(content) // 2
    if size <= LONG_BYTES:
        return span("bytes", f"0x{content}")
    return tag(
        "span",
        text(f"0x{content[:24]}.."),
        span("type", f" {size:,} bytes"),
        class_="bytes",
        title=f"0x{content[:2000]}",
    )


def string(content: str) -> str:
    """Returns a text with quotes, cut if it is long."""
    if len(content) <= LONG_TEXT:
        return span("string", json.dumps(content))
    return span("string", json.dumps(content[:LONG_TEXT] + "..")) + span("type", f" {len(content):,} characters")


def parts(content: List[Json], shown: Callable[[Json], str]) -> List[str]:
    """Returns what `shown` makes of the first members, as long as there is room, and how many more there are."""
    found = [shown(member) for member in itertools.takewhile(lambda _: Room.taken(), content[:MOST_MEMBERS])]
    left = len(content) - len(found)
    return found + [span("type", f"and {left:,} more")] * (left > 0)


def listed(start: str, items: List[str], end: str) -> str:
    """Returns parts with commas between them. A comma or a bracket stays on the line of the address or number before it."""
    behind = [", "] * (len(items) - 1) + [end]
    if not items:
        return span("punct", start + end)
    return span("punct", start) + "".join(kept(part, sign) for part, sign in zip(items, behind))


def kept(part: str, sign: str) -> str:
    mark = span("punct", sign.rstrip())
    return (tag("span", part, mark, class_="keep") if is_short(part) else part + mark) + (
        " " if sign.endswith(" ") else ""
    )


def together(sign: str, part: str) -> str:
    """Returns a part with a sign before it, which stays on the line of an address or a number."""
    return tag("span", sign, part, class_="keep") if is_short(part) else sign + part


def is_short(part: str) -> bool:
    return part.startswith(('<span class="who', '<span class="numeral'))


def members(pairs: List[Json]) -> str:
    return listed("{", parts(pairs, member), "}")


def member(pair: Json) -> str:
    return inner_value(pair["key"]) + span("punct", ": ") + inner_value(pair["val"])


def executable(content: Json) -> str:
    return code(content["wasm"]) if isinstance(content, dict) else text(content)


def code(digest: str) -> str:
    """Returns the hash of a code, cut."""
    return tag("span", text(f"code {digest[:8]}"), class_="bytes mono", title=digest)


def key(content: Json) -> str:
    """Returns a ledger key."""
    ((kind, fields),) = content.items()
    if kind == "contract_code":
        return code(fields["hash"])
    if kind == "contract_data":
        durability = tag("span", "temporary", class_="pill warn") if fields["durability"] == "temporary" else ""
        return " ".join(filter(None, (who(fields["contract"]), value(fields["key"]), durability)))
    shown = (part if isinstance(part, str) else json.dumps(part) for part in fields.values())
    names = (who(part) if part[:1] in "GLB" and len(part) >= 56 else text(part) for part in shown)
    return f"{text(kind.replace('_', ' '))} {' '.join(names)}"


def function(content: Json) -> str:
    """Returns what a host function or a node of a tree does: a call with its arguments, a create, an upload."""
    ((kind, fields),) = content.items()
    if kind in ("invoke_contract", "contract_fn"):
        name = tag("b", text(fields["function_name"]), class_="mono")
        return f"{who(fields['contract_address'])} {name}{arguments(fields['args'])}"
    if kind == "upload_contract_wasm":
        return f"{tag('b', 'upload')} a module of {len(fields) // 2:,} bytes"
    args = arguments(fields["constructor_args"]) if "constructor_args" in fields else ""
    return f"{tag('b', 'create')} {executable(fields['executable'])}{args} {preimage(fields['contract_id_preimage'])}"


def arguments(args: List[Json]) -> str:
    return whole(lambda: listed("(", parts(args, inner_value), ")"))


def preimage(content: Json) -> str:
    ((kind, fields),) = content.items()
    return f"by {who(fields['address'])}" if kind == "address" else f"of an asset {text(json.dumps(fields))}"
