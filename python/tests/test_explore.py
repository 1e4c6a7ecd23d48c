"""The page of a closed ledger: what stands on it, and how it looks in headless Chromium."""
from __future__ import annotations

import html.parser
import os
import re
import struct
import subprocess
import tempfile
import unittest
import unittest.mock
import zlib
from typing import Any, List, Optional, Tuple

from soroban_files import envelopes, wallet
from soroban_files.values import u64
from soroban_files.world import World, WorldTest
from tests import BROWSER
from tests.tables import REPOSITORY

TOKEN = os.path.join(REPOSITORY, "examples", "token", "token.hex")
MARKET = os.path.join(os.path.dirname(os.path.abspath(__file__)), "market.hex")
VOID_ELEMENTS = ("meta", "br", "wbr")


def trading_day(world: World) -> None:
    """Closes a ledger in which much happens: two stages, several clusters, a trade, a fee bump, a failure, an upload."""
    admin, alice, bob, carol, dave = world.accounts("admin", "alice", "bob", "carol", "dave")
    gold, silver = (world.deploy(TOKEN, admin, name=name) for name in ("gold", "silver"))
    market = world.deploy(MARKET, name="market")
    for token, holder, amount in ((silver, alice, 1000), (silver, carol, 400), (gold, bob, 50), (gold, dave, 8)):
        token.call("mint", holder, u64(amount), by=admin)

    def transfer(token: Any, *args: Any, **how: Any) -> Any:
        return world.prepare(envelopes.call(token, "transfer", args), **how)

    trade = envelopes.call(market, "buy", [alice, bob, gold, u64(5), silver, u64(125)])
    pays, gives = silver.node("transfer", alice, bob, u64(125)), gold.node("transfer", bob, alice, u64(5))
    entries = [
        envelopes.source_entry(envelopes.node(trade, [pays])),
        world.authorize(bob, envelopes.node(trade, [gives])),
    ]
    bought = world.prepare(trade, by=alice, auth=entries)
    poor = envelopes.soroban_data(instructions=1_000_000, read_bytes=4000, write_bytes=1000)
    failing = world.signed(
        world.envelope(envelopes.call(silver, "transfer", [dave, carol, u64(700)]), by=dave, data=poor), dave
    )
    bump = envelopes.fee_bump(transfer(gold, bob, carol, u64(1), by=bob), admin, 1000)
    upload = world.prepare(envelopes.upload(bytes.fromhex("0061736d01000000")), by=carol)
    declared = envelopes.soroban_data([envelopes.instance_key(gold)], instructions=0, read_bytes=0, write_bytes=0)
    extended = envelopes.envelope(bob, envelopes.extend(100_000), seq=2, data=declared)
    first = [
        [bought],
        [transfer(silver, carol, dave, u64(40), by=carol), failing],
        [transfer(gold, dave, admin, u64(1), signers=[dave])],
    ]
    world.close([first, [[wallet.sign(bump, world.network, wallet.Key.named("admin")), extended], [upload]]])


class Balance(html.parser.HTMLParser):
    """Finds elements that are not closed, and resources from outside."""

    def __init__(self) -> None:
        super().__init__()
        self.open: List[str] = []
        self.seen: List[str] = []
        self.text: List[str] = []
        self.faults: List[str] = []

    def handle_starttag(self, tag: str, attrs: List[Tuple[str, Optional[str]]]) -> None:
        self.seen.append(tag)
        if tag not in VOID_ELEMENTS:
            self.open.append(tag)
        self.faults += [
            f"{tag} {name}={value}"
            for name, value in attrs
            if name in ("src", "href") and not (value or "").startswith("#")
        ]

    def handle_endtag(self, tag: str) -> None:
        if not self.open or self.open.pop() != tag:
            self.faults.append(f"</{tag}>")

    def handle_data(self, data: str) -> None:
        self.text.append(data)


class PageTest(WorldTest):
    page: Optional[str] = None

    def setUp(self) -> None:
        super().setUp()
        self.needs_keys()
        if PageTest.page is None:
            trading_day(self.world)
            PageTest.page = self.world.page()

    def read(self) -> Tuple[Balance, str]:
        parser = Balance()
        parser.feed(PageTest.page or "")
        return parser, re.sub(r"\s+", " ", "".join(parser.text))

    def test_content(self) -> None:
        parser, text = self.read()
        self.assertEqual((parser.open, parser.faults), ([], []))
        for said in (
            "6 of 7",
            "Stage 0",
            "Stage 1",
            "3 clusters side by side",
            "market buy(alice, bob, gold, 5 u64, silver, 125 u64)",
            "alice authorises the call, and below it",
            "silver transfer(alice, bob, 125 u64)",
            "bob signs the call, and below it",
            "nonce 7919, until ledger",
            "6 success, 1 trapped",
            "fee bump by admin",
            "extend 1 entry to live for 100,000 ledgers",
            "upload a module of 8 bytes",
            "silver transfer carol dave → 40 u64",
            "1,000 u64→875 u64",
            "live until",
            "Who is who",
        ):
            self.assertIn(said, text)

    def test_markup_of_others(self) -> None:
        """Text of a contract is no markup."""
        from soroban_files.explore.shown import value

        self.assertNotIn("<b>", value({"string": "<b>"}))
        self.assertNotIn('"', re.sub(r'="[^"]*"', "", value({"symbol": '"a"'})))

    def test_other_report(self) -> None:
        from soroban_files.explore import page

        closed = self.world.closed or self.closed_of_a_call()
        with self.assertRaises(ValueError):
            page(closed.before, closed.tx_set, bytes(4), closed.after)

    def test_other_ledger(self) -> None:
        """The second ledger has to follow the first one."""
        from soroban_files.explore import page

        closed = self.world.closed or self.closed_of_a_call()
        with self.assertRaisesRegex(ValueError, "the ledger after has the number .*, and .* is due"):
            page(closed.before, closed.tx_set, closed.report, closed.before)

    def closed_of_a_call(self) -> Any:
        self.world.upload(TOKEN)
        return self.world.closed

    def test_looks(self) -> None:
        """In both themes Chromium paints a page of many colours, with the right ground."""
        if BROWSER is None:
            self.skipTest("Chromium is missing")
        for theme, ground in (("light", (0xF4, 0xF5, 0xF8)), ("dark", (0x12, 0x15, 0x1C))):
            page = (PageTest.page or "").replace("<html", f'<html data-theme="{theme}"', 1)
            with self.subTest(theme):
                width, rows = pixels(screenshot(BROWSER, page, "1000,620"))
                corner = tuple(rows[-1][:3])
                self.assertEqual(corner, ground)
                colours = {row[at : at + 3] for row in rows[::7] for at in range(0, 3 * width, 21)}
                self.assertGreater(len(colours), 20)

    def test_scripts(self) -> None:
        """The browser runs the page's own script, and no other one."""
        if BROWSER is None:
            self.skipTest("Chromium is missing")
        own = 'document.body.dataset.own = "yes";'
        with unittest.mock.patch("soroban_files.explore.page.resource", lambda name: own if name == "page.js" else ""):
            page = self.world.page() if self.world.closed else self.page_of_a_call()
        other = (
            '<script>document.body.dataset.other = "yes";</script><img src="x" onerror="document.body.dataset.img = 1">'
        )
        self.assertIn('<body data-own="yes">', shown(BROWSER, page.replace("<main>", "<main>" + other)))

    def page_of_a_call(self) -> str:
        self.closed_of_a_call()
        return self.world.page()


def shown(browser: str, page: str) -> str:
    """Returns the elements of a page after its scripts ran."""
    with tempfile.TemporaryDirectory() as folder:
        name = os.path.join(folder, "page.html")
        with open(name, "w", encoding="utf-8") as file:
            file.write(page)
        words = [
            browser,
            "--headless",
            "--no-sandbox",
            "--disable-gpu",
            f"--user-data-dir={folder}/profile",
            "--dump-dom",
        ]
        done = subprocess.run(
            [*words, "file://" + name], stdout=subprocess.PIPE, stderr=subprocess.DEVNULL, timeout=50, check=True
        )
        return done.stdout.decode()


def screenshot(browser: str, page: str, size: str) -> bytes:
    """Returns a page's picture, a PNG of a width and a height."""
    with tempfile.TemporaryDirectory() as folder:
        name, picture = os.path.join(folder, "page.html"), os.path.join(folder, "page.png")
        with open(name, "w", encoding="utf-8") as file:
            file.write(page)
        words = [
            browser,
            "--headless",
            "--no-sandbox",
            "--disable-gpu",
            "--hide-scrollbars",
            f"--window-size={size}",
            f"--user-data-dir={folder}/profile",
            f"--screenshot={picture}",
            "file://" + name,
        ]
        subprocess.run(words, stdout=subprocess.DEVNULL, stderr=subprocess.DEVNULL, timeout=50, check=True)
        with open(picture, "rb") as file:
            return file.read()


def pixels(png: bytes) -> Tuple[int, List[bytes]]:
    """Returns the width and the rows of a PNG of 8 bits a channel, without its alpha."""
    width, _, depth, kind = struct.unpack(">IIBB", png[16:26])
    size = {2: 3, 6: 4}[kind]
    assert depth == 8
    data, at = b"", 8
    while at < len(png):
        (length,) = struct.unpack(">I", png[at : at + 4])
        data += png[at + 8 : at + 8 + length] if png[at + 4 : at + 8] == b"IDAT" else b""
        at += 12 + length
    raw, stride, rows, above = zlib.decompress(data), width * size, [], bytearray(width * size)
    for start in range(0, len(raw), stride + 1):
        above = unfiltered(raw[start], bytearray(raw[start + 1 : start + 1 + stride]), above, size)
        rows.append(
            b"".join(above[point : point + 3] for point in range(0, stride, size)) if size == 4 else bytes(above)
        )
    return width, rows


def unfiltered(kind: int, row: bytearray, above: bytearray, size: int) -> bytearray:
    """Undoes the filter of a row of a PNG."""
    for index in range(len(row)):
        left = row[index - size] if index >= size else 0
        corner = above[index - size] if index >= size else 0
        if kind == 1:
            row[index] = (row[index] + left) & 255
        elif kind == 2:
            row[index] = (row[index] + above[index]) & 255
        elif kind == 3:
            row[index] = (row[index] + (left + above[index]) // 2) & 255
        elif kind == 4:
            guess = left + above[index] - corner
            near = min(
                (abs(guess - left), 0, left),
                (abs(guess - above[index]), 1, above[index]),
                (abs(guess - corner), 2, corner),
            )
            row[index] = (row[index] + near[2]) & 255
    return row


if __name__ == "__main__":
    unittest.main()
