"""The page of a closed ledger with its change log, and logs that do not fit."""
from __future__ import annotations

import copy
import itertools
import random
import unittest
from typing import Dict, Iterator, List, NamedTuple, Optional, Tuple

from soroban_files import decode, encode, envelopes, files, hashes, ledgers, schema, strkey
from soroban_files.changes import Unfit, stages
from soroban_files.explore import page, page_of
from soroban_files.xdr import Json, Refusal
from tests.samples import samples
from tests.tables import Table, tables
from tests.test_explore import Balance
from tests.test_hostile import ELEMENTS, NETWORK, ledger

Row = Tuple[str, ...]  # what the page has in a line of a table: made, changed, gone or a life; the key; the content
CLOSED = 2**64 - 1  # the close time of each ledger of `ledger`


class Tables(Balance):
    """Reads the lines of the tables of each transaction, by its place, and of the end of each stage."""

    def __init__(self) -> None:
        super().__init__()
        self.rows: Dict[str, List[List[str]]] = {}
        self.place = ""
        self.stages = 0

    def handle_starttag(self, tag: str, attrs: List[Tuple[str, Optional[str]]]) -> None:
        super().handle_starttag(tag, attrs)
        given = dict(attrs)
        if tag == "details" or given.get("class") == "end":
            self.place = given.get("id") or f"end {self.stages}"
            self.stages += tag == "div"
            self.rows[self.place] = []
        elif tag == "h2":
            self.place = ""
        elif tag == "tr" and self.place:
            self.rows[self.place].append([])
        elif tag == "td" and self.place:
            self.rows[self.place][-1].append("")

    def handle_data(self, data: str) -> None:
        super().handle_data(data)
        if self.place and "td" in self.open:
            self.rows[self.place][-1][-1] += data


def read(html: str) -> Tables:
    """Reads a page, which has to be well formed."""
    found = Tables()
    found.feed(html)
    if (found.open, found.faults) != ([], []):
        raise AssertionError((found.open, found.faults))
    return found


# ---- What the page has to say of a list of changes whose values are numbers


def expected(changes: List[Json]) -> List[Row]:
    """Returns the lines of a list of changes, by the changes alone: each TTL entry stands behind its entry."""
    lines: List[Row] = []
    states: List[Json] = []
    for change in changes:
        ((kind, content),) = change.items()
        is_life = "ttl" in (content if kind == "removed" else content["data"])
        if kind == "state":
            states = states + [content] if is_life else [content]
        elif kind == "updated" and is_life:
            moved = bool(lines) and lines[-1][:2] == ("changed", said_key(states[0]))
            lines.append(("and its life" if moved else "life", said_key(states[0]), f"{until(states[1])}→{life(content):,}"))
        elif kind == "updated":
            lines.append(("changed", said_key(content), f"{number(states[0])}→{number(content)}"))
        elif kind == "created":
            states = states + [content] if is_life else [content]
        if is_life and kind in ("created", "removed"):
            said = "made" if kind == "created" else "gone"
            lines.append((said, said_key(states[0]), f"{number(states[0])} {until(states[1])}"))
    return sorted(lines)


def said_key(entry: Json) -> str:
    ((kind, fields),) = entry["data"].items()
    if kind == "contract_code":
        return f"code {fields['hash'][:8]}"
    durability = " temporary" if fields["durability"] == "temporary" else ""
    return f"{strkey.short(fields['contract'])} {fields['key']['symbol']}{durability}"


def number(entry: Json) -> str:
    ((kind, fields),) = entry["data"].items()
    return str(fields["val"]["u32"]) if kind == "contract_data" else f"a module of {len(fields['code']) // 2} bytes"


def life(ttl: Json) -> int:
    return int(ttl["data"]["ttl"]["live_until_ledger_seq"])


def until(ttl: Json) -> str:
    return f"live until {life(ttl):,}"


class Closed(NamedTuple):
    """The files of a run of `apply` in a table."""

    place: str
    before: bytes
    tx_set: bytes
    report: bytes
    after: bytes
    log: bytes


def closed_ledgers(table: Table) -> Iterator[Closed]:
    """Yields each run of a table that stores a log and spells all its files, unless the run before had the same ones."""
    room: Dict[str, bytes] = {}
    last: List[bytes] = []
    for line in table.lines():
        word, _, rest = line.text.partition(" => ")[0].partition(" ")
        name, _, spelled = rest.partition(" ")
        if word == "file":
            room[name] = table.spelled(spelled + "".join(line.below))
        is_good = word == "run" and line.outcome()[0].startswith("0 ")
        stored = dict(stores(table, line.below)) if is_good else {}
        if {"report", "next", "log"} <= stored.keys():
            tx_set = files.from_base64(room["set"]) if "--base64" in rest else room["set"]
            found = [room["ledger"], tx_set, stored["report"], stored["next"], stored["log"]]
            if found != last:
                yield Closed(line.place, *found)
            last = found


def stores(table: Table, outcome: List[str]) -> Iterator[Tuple[str, bytes]]:
    """Yields the files that an outcome spells."""
    for line in outcome:
        word, _, rest = table.plain(line).partition(" ")
        name, _, digits = rest.partition(" ")
        if word == "stores" and " " not in digits:
            yield name, bytes.fromhex(digits)


class LogTableTest(unittest.TestCase):
    """The rows of log.txt: what `apply --log` stores is what the page says of each transaction."""

    def setUp(self) -> None:
        (self.table,) = [table for table in tables("command_cases") if table.path.endswith("/log.txt")]

    def test_rows(self) -> None:
        counts: Dict[str, int] = {}
        for closed in closed_ledgers(self.table):
            with self.subTest(closed.place):
                found = read(page(*closed[1:5], log=closed.log)).rows
                wanted = dict(self.lists(closed))
                self.assertEqual(list(found), list(wanted))
                for place, changes in wanted.items():
                    self.assertEqual(sorted(map(tuple, found[place])), expected(changes), place)
                    for kind, *_ in found[place]:
                        counts[kind] = counts.get(kind, 0) + 1
        self.assertGreater(counts["changed"], 10)
        self.assertGreater(counts["life"], 3)
        self.assertGreater(counts["and its life"], 0)

    def lists(self, closed: Closed) -> Iterator[Tuple[str, List[Json]]]:
        """Yields the place and the changes of each transaction, cluster after cluster, and of the end of each stage."""
        log = decode("log", closed.log)
        for number_, clusters in enumerate(envelopes.stages_of(decode("set", closed.tx_set))):
            left = iter(log["stages"][number_]["transactions"])
            for cluster, sent in enumerate(clusters):
                for index, _ in enumerate(sent):
                    yield f"t{number_}-{cluster}-{index}", next(left)
            yield f"end {number_}", log["stages"][number_]["end"]

    def test_without_log(self) -> None:
        """Without a log no transaction has a table."""
        for closed in itertools.islice(closed_ledgers(self.table), 3):
            html = page(*closed[1:5])
            self.assertEqual(list(itertools.chain(*read(html).rows.values())), [])
            for said in ("end of the stage", "change log", "no change"):
                self.assertNotIn(said, html)


class PlayTableTest(unittest.TestCase):
    """The rows of play.txt: a log that the program plays fits, and each other one does not fit at the same place."""

    def test_rows(self) -> None:
        (table,) = [table for table in tables("command_cases") if table.path.endswith("/play.txt")]
        room: Dict[str, bytes] = {}
        counts = {"played": 0, "log": 0}
        for line in table.lines():
            word, _, rest = line.text.partition(" => ")[0].partition(" ")
            name, _, spelled = rest.partition(" ")
            if word == "file":
                room[name] = table.spelled(spelled + "".join(line.below))
            elif word == "run" and table.words(rest)[-1] == "0":
                status, _, said = line.outcome()[0].partition(" ")
                if status in ("0", "8"):
                    with self.subTest(line.place):
                        self.judge(room, said, dict(stores(table, line.below)).get("next"))
                    counts[said.split(" ")[0]] += 1
        self.assertGreater(counts["played"], 10)
        self.assertGreater(counts["log"], 30)

    def judge(self, room: Dict[str, bytes], said: str, after: Optional[bytes]) -> None:
        """Judges a log as the program did. If it does not fit, the ledger after is one with the header that it names."""
        before, log = decode("ledger", room["ledger"]), decode("log", room["log"])
        named = {"seq": log["old_seq"] + 1, "close_time": log["new_close_time"]}
        last = decode("ledger", after) if after else {"v2": {**ledgers.migrated(before)["v2"], **named}}
        came = f"played {len(log['stages'])} stages"
        try:
            stages(log, before, last, [len(stage["transactions"]) for stage in log["stages"]])
        except Unfit as unfit:
            came = str(unfit)
        self.assertEqual(came, said)


# ---- Ledgers made by hand


def logged(old: Json, new: Json) -> List[Json]:
    """Returns the changes from one ledger to another."""
    before, after = ledgers.entries(old), ledgers.entries(new)
    changes: List[Json] = []
    for key in sorted({**before, **after}):
        was, is_ = ([r["entry"], ttl_entry(r)] if r else [] for r in (before.get(key), after.get(key)))
        if was == is_:
            continue
        changes += [{"state": entry} for entry in was]
        changes += [{"created": entry} for entry in is_ if not was]
        changes += [{"updated": entry} for entry in is_ if was and entry not in was]
        if was and not is_:
            ((kind, fields),) = was[0]["data"].items()
            names = ("hash",) if kind == "contract_code" else ("contract", "key", "durability")
            changes.append({"removed": {kind: {name: fields[name] for name in names}}})
            changes.append({"removed": {"ttl": {"key_hash": ledgers.sha256(key)}}})
    return changes


def ttl_entry(record: Json) -> Json:
    return {"last_modified_ledger_seq": 0, "data": {"ttl": record["ttl"]}, "ext": "v0"}


class HandMadeTest(unittest.TestCase):
    """Two transactions and the end of their stage lead from ledger to ledger: entries are made, changed and gone, and live on."""

    def setUp(self) -> None:
        entries = samples(schema.ENTRY)[-35:]  # values with texts of others, and codes
        turned = copy.deepcopy(entries)
        values = [entry["data"]["contract_data"]["val"] for entry in entries if "contract_data" in entry["data"]]
        for entry, value in zip((e for e in turned if "contract_data" in e["data"]), values[1:] + values[:1]):
            entry["data"]["contract_data"]["val"] = value
        steps = [(entries[:-12], 100), (entries, 100), (turned[12:], 101), (turned[12:], 101)]
        self.states = [ledger(*step) for step in steps]
        for record in self.states[-1]["v2"]["records"]:
            record["ttl"]["live_until_ledger_seq"] = 6000
        lists = [logged(old, new) for old, new in zip(self.states, self.states[1:])]
        self.log = log_of([{"transactions": lists[:2], "end": lists[2]}])
        envelope = envelopes.envelope(samples(schema.ACCOUNT)[0], envelopes.restore())
        digest = hashes.envelope_hash(NETWORK, envelope)
        result = {"fee_charged": "0", "result": "tx_too_late", "ext": "v0"}
        self.report = [{"transaction_hash": digest, "result": result, "success": None}] * 2
        self.set = envelopes.parallel_set([[[envelope], [envelope]]])

    def page(self) -> str:
        log = decode("log", encode("log", self.log))
        return page_of(self.states[0], self.set, self.report, self.states[-1], log=log)

    def test_markup(self) -> None:
        """Texts of others in changed entries are text, and control characters are shown as their codes."""
        html = self.page()
        found = read(html)
        self.assertEqual(set(found.seen) - set(ELEMENTS.split()), set())
        self.assertEqual(found.seen.count("script"), 1)
        self.assertNotIn("\x1b", html)
        for place, kinds in (("t0-0-0", {"made"}), ("t0-1-0", {"changed", "gone"}), ("end 0", {"life"})):
            self.assertEqual({row[0] for row in found.rows[place]}, kinds)
            said = "".join(itertools.chain(*found.rows[place]))
            self.assertIn("<b a=", said, place)
            self.assertIn("\\x1b[1m", said, place)

    def test_counts(self) -> None:
        """The card of a transaction says how many changes it has."""
        found = read(self.page())
        rows, text = found.rows, "".join(found.text)
        for place in ("t0-0-0", "t0-1-0"):
            self.assertIn(f"{len(rows[place]):,} changes, footprint, limits, hash", text)
        self.assertIn(f"end of the stage · {len(rows['end 0']):,} changes", text)

    def test_many(self) -> None:
        """Of many changes the page shows the first ones, and says how many it leaves out."""
        entry = next(entry for entry in samples(schema.ENTRY) if "contract_data" in entry["data"])
        many = [copy.deepcopy(entry) for _ in range(1000)]
        for number_, made in enumerate(many):
            made["data"]["contract_data"]["key"] = {"u32": number_}
        before, after = ledger([]), ledger(many, 101)
        log = log_of([{"transactions": [logged(before, after), []], "end": []}])
        found = read(page_of(before, self.set, self.report, after, log=log))
        self.assertEqual([len(found.rows[place]) for place in ("t0-0-0", "t0-1-0", "end 0")], [100, 0, 0])
        text = "".join(found.text)
        self.assertIn("and 900 more, which this page leaves out", text)
        self.assertIn("no change, footprint, limits, hash", text)

    def test_many_cards(self) -> None:
        """The more transactions there are, the fewer changes of each one stand on the page."""
        entry = next(entry for entry in samples(schema.ENTRY) if "contract_data" in entry["data"])
        states = []
        for turn in range(501):
            made = [copy.deepcopy(entry) for _ in range(20)]
            for number_, each in enumerate(made):
                each["data"]["contract_data"].update({"key": {"u32": number_}, "val": {"u32": turn}})
            states.append(made)
        lists = []
        for old, new in zip(states, states[1:]):
            lists.append([it for pair in zip(old, new) for it in self.change(*pair)])
        log = log_of([{"transactions": lists, "end": []}])
        (envelope, *_), (pair, *_) = self.set["v1"]["phases"][1]["v1"]["execution_stages"][0][0], self.report
        tx_set, report = envelopes.parallel_set([[[envelope] * 500]]), [pair] * 500
        html = page_of(ledger(states[0]), tx_set, report, ledger(states[-1], 101), log=log)
        rows = read(html).rows
        self.assertEqual({len(rows[place]) for place in rows if place.startswith("t")}, {19})

    def change(self, old: Json, new: Json) -> List[Json]:
        """Returns the changes of an entry whose life stays."""
        return logged(ledger([old]), ledger([new]))

    def test_remarks(self) -> None:
        """A failure with changes of lives alone, and an extension that changes nothing yet, have a sentence."""
        (old, *_), last = self.states, self.states[-1]
        longer = copy.deepcopy(old)
        for record in longer["v2"]["records"]:
            record["ttl"]["live_until_ledger_seq"] = 6000
        longer["v2"].update(seq=101, close_time=last["v2"]["close_time"])
        for transactions, said in (([logged(old, longer), []], True), ([[], []], False)):
            after = longer if said else {"v2": {**old["v2"], "seq": 101, "close_time": last["v2"]["close_time"]}}
            log = log_of([{"transactions": transactions, "end": []}])
            text = "".join(read(page_of(old, self.set, self.report, after, log=log)).text)
            self.assertEqual("put in before this one ran" in text, said)

    def unfit(self, log: Json) -> str:
        """Returns where a log does not fit, and why."""
        with self.assertRaises(Unfit) as caught:
            stages(decode("log", encode("log", log)), self.states[0], self.states[-1], [2])
        return f"{caught.exception}: {caught.exception.why}"

    def test_other_log(self) -> None:
        """A log of another ledger or of another set does not fit."""
        (stage,) = self.log["stages"]
        for changed, said in (
            ({"old_seq": 99}, "header: it leads from ledger 99 closed at"),
            ({"old_close_time": "5"}, "header: it leads from ledger 100 closed at 5 to ledger 101"),
            ({"new_close_time": "6"}, f"header: it leads from ledger 100 closed at {CLOSED} to ledger 101 closed at 6; "),
            ({"stages": []}, "stages: the log has 0, the set 1"),
            ({"stages": [stage, stage]}, "stages: the log has 2, the set 1"),
            ({"stages": [{**stage, "transactions": [[]]}]}, "stage 0: the log has 1 of its transactions, the set 2"),
            ({"stages": [{**stage, "end": []}]}, "next ledger: the log leads to other entries"),
            ({"stages": [{**stage, "transactions": [[], []]}]}, "stage 0, place 2: the ledger has another entry there"),
            ({"stages": [{**stage, "transactions": stage["transactions"][::-1]}]}, "stage 0, place 0: the ledger has"),
        ):
            self.assertIn(f"log does not fit: {said}", self.unfit({**self.log, **changed}))

    def test_no_groups(self) -> None:
        """Changes that make up no groups do not fit, wherever one is missing, stands twice, or is another one."""
        (stage,) = self.log["stages"]
        for place, changes in enumerate([*stage["transactions"], stage["end"]]):
            for changed in broken(changes[:8]):
                lists = [*stage["transactions"], stage["end"]]
                lists[place] = changed + changes[8:]
                said = self.unfit({**self.log, "stages": [{"transactions": lists[:2], "end": lists[2]}]})
                self.assertRegex(said, "^log does not fit: (stage 0, place [012]|next ledger): ")

    def test_hashes(self) -> None:
        """An entry that is made needs the hashes of its key and of its code."""
        (stage,) = self.log["stages"]
        for kind, name in (("ttl", "key_hash"), ("contract_code", "code")):
            made = copy.deepcopy(stage["transactions"][0])
            fields = next(change["created"]["data"][kind] for change in made if kind in change["created"]["data"])
            fields[name] = "00" * 32
            log = {**self.log, "stages": [{**stage, "transactions": [made, stage["transactions"][1]]}]}
            self.assertIn("place 0: its changes make up no groups of whole entries", self.unfit(log))


    def test_broken_files(self) -> None:
        """A log with bytes that were changed by chance is refused, or does not fit, or fits: nothing else comes of it."""
        chance, data = random.Random(34), encode("log", self.log)
        for _ in range(60):
            made = bytearray(data)
            made[chance.randrange(len(made))] = chance.choice((0, 1, 2, 3, 6, 7, 9, 255))
            try:
                stages(decode("log", bytes(made)), self.states[0], self.states[-1], [2])
            except (Refusal, Unfit) as error:
                self.assertTrue(str(error).isprintable())


def log_of(stages: List[Json]) -> Json:
    """Returns a log between ledgers of `ledger`, of the numbers 100 and 101."""
    return {"old_seq": 100, "old_close_time": str(CLOSED), "new_close_time": str(CLOSED), "stages": stages}


def broken(changes: List[Json]) -> Iterator[List[Json]]:
    """Yields lists in which a change is missing, stands twice, is of another kind, or stands behind the next one."""
    for index, change in enumerate(changes):
        before, behind = changes[:index], changes[index + 1 :]
        ((kind, content),) = change.items()
        yield before + behind
        yield before + [change, change] + behind
        for other in {"created", "updated", "state"} - {kind} if kind != "removed" else ():
            yield before + [{other: content}] + behind
        if behind:
            yield before + [behind[0], change] + behind[1:]


if __name__ == "__main__":
    unittest.main()
