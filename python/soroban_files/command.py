"""The command `soroban-files`.

Its status is that of the program where both speak of the same: 1 for refused bytes and modules, 2 for wrong words, 3 for a
ledger, verdicts or schedule that are refused, 4 for a file that cannot be read or written, 6 for one of more than
2^30 bytes, 8 for a change log that does not fit.
"""
from __future__ import annotations

import argparse
import base64
import difflib
import json
import re
import sys
from typing import Any, Dict, List, NoReturn, Optional

from . import __version__, changes, diff, files, ledgers, lint, program, schema, wallet, where
from .program import NoProgram, Program, Refused
from .xdr import Json, Misfit, Refusal


MOST_BYTES = 2**30  # of a file, for the program, too


class Fault(Exception):
    """The command ends with this status and this line."""

    def __init__(self, status: int, line: str) -> None:
        super().__init__(line)
        self.status = status


# ---- Files of the command line


def read_file(name: str, is_base64: bool = False) -> bytes:
    """Returns a file's bytes; `-` is the standard input."""
    try:
        if name == "-":
            data = sys.stdin.buffer.read(MOST_BYTES + 1)
        else:
            with open(name, "rb") as file:
                data = file.read(MOST_BYTES + 1)
    except OSError as error:
        raise Fault(4, f"fault on {name}: {error.strerror}") from None
    except ValueError as error:  # a name with a zero
        raise Fault(4, f"fault on {name!r}: {error}") from None
    if len(data) > MOST_BYTES:
        raise Fault(6, f"too long: {name}")
    try:
        return files.from_base64(data) if is_base64 else data
    except files.NotBase64:
        raise Fault(1, f"not base64: {name}") from None


def write_file(name: Optional[str], data: bytes) -> None:
    """Writes bytes to a file; without a name, or with `-`, to the standard output."""
    try:
        if name in (None, "-"):
            sys.stdout.buffer.write(data)
            sys.stdout.buffer.flush()
        else:
            with open(str(name), "wb") as file:
                file.write(data)
    except OSError as error:
        raise Fault(4, f"fault on {name or 'the output'}: {error.strerror}") from None


def write_envelope(name: Optional[str], envelope: Json) -> None:
    """Writes an envelope to a file; without a name, as a line of base64 to the standard output."""
    data = schema.write(schema.ENVELOPE, envelope)
    write_file(name, data if name not in (None, "-") else base64.b64encode(data) + b"\n")


def decoded(kind: str, name: str, is_base64: bool = False, checked: bool = True) -> Json:
    """Returns the JSON of a file, or ends the command as the program does at a refusal."""
    data = read_file(name, is_base64)
    try:
        return files.decode(kind, data, checked)
    except Refusal as refusal:
        if kind in ("verdicts", "schedule"):
            raise Fault(3, f"{kind} refused at {refusal.at}: {refusal.why}") from None
        path = f" ({refusal.item.path})" if refusal.item and refusal.item.path else ""
        raise Fault(1, f"{refusal}{path}" + hint(kind, name, is_base64, str(refusal.at))) from None
    except ledgers.LedgerRefusal as refusal:
        place = str(refusal.at) if refusal.number == 1 else f"--record {refusal.at}" if refusal.number < 5 else ""
        raise Fault(3, f"{refusal}: {refusal.why}" + hint(kind, name, is_base64, place)) from None


def hint(kind: str, name: str, is_base64: bool, place: str) -> str:
    """Returns a line with the command that says more of a refusal, unless there is no place or no file."""
    text = " --base64" if is_base64 else ""
    return f"\nsoroban-files where {kind} {name} {place}{text} says more" if place and name != "-" else ""


def put_json(value: Json, compact: bool = False) -> None:
    text = json.dumps(value) if compact else json.dumps(value, indent=2)
    write_file(None, text.encode() + b"\n")


def put_lines(lines: List[str]) -> None:
    write_file(None, "".join(line + "\n" for line in lines).encode())


# ---- The commands


def do_decode(words: argparse.Namespace) -> int:
    put_json(decoded(words.kind, words.file, words.base64, not words.unchecked), words.compact)
    return 0


def do_encode(words: argparse.Namespace) -> int:
    value = files.from_json(read_file(words.file))
    data = files.encode(words.kind, value, not words.unchecked)
    write_file(words.out, base64.b64encode(data) + b"\n" if words.base64 else data)
    return 0


def do_diff(words: argparse.Namespace) -> int:
    found = diff.difference(decoded("ledger", words.before), decoded("ledger", words.after))
    if words.json:
        put_json(diff.as_json(found))
    else:
        put_lines(diff.lines(found))
    return 0


def do_where(words: argparse.Namespace) -> int:
    if words.record is not None and words.kind != "ledger":
        raise Fault(2, "--record is for ledgers")
    if (words.record is None) == (words.offset is None):
        raise Fault(2, "say either an offset, or --record and its index")
    data = read_file(words.file, words.base64)
    if words.record is not None:
        put_lines(where.record_lines(data, words.record))
    else:
        put_lines(where.lines(words.kind, data, words.offset))
    return 0


def do_lint(words: argparse.Namespace) -> int:
    there = Program(words.program) if words.program or program.is_there() else None
    found = lint.lint(read_file(words.module), there)
    put_lines([str(finding) for finding in found] or ["nothing to say"])
    return 1 if any(finding.level == "error" for finding in found) else 0


def do_explore(words: argparse.Namespace) -> int:
    from . import explore

    ledger, tx_set = decoded("ledger", words.ledger), decoded("set", words.set, words.base64)
    report, after = decoded("report", words.report), decoded("ledger", words.next)
    log = decoded("log", words.log) if words.log is not None else None
    names = names_in(words.names) if words.names else None
    write_file(words.out, explore.page_of(ledger, tx_set, report, after, words.theme, names, log).encode())
    return 0


def names_in(name: str) -> Dict[str, str]:
    """Returns the names of addresses in a file."""
    names = files.from_json(read_file(name))
    if not isinstance(names, dict) or not all(isinstance(text, str) for text in names.values()):
        raise Fault(1, f'{name} has no object of addresses and their names, such as {{"GABC..": "alice"}}')
    return names


# ---- Words


class Parser(argparse.ArgumentParser):
    """A parser that also says which word may be meant by a wrong one."""

    def error(self, message: str) -> NoReturn:
        match = re.search(r"invalid choice: '(.*?)' \(choose from (.*)\)", message)
        if match:
            names = re.findall(r"[\w-]+", match.group(2))
            near = difflib.get_close_matches(match.group(1), names, 1)
            listed = f" (one of {', '.join(names)})" if len(names) < 20 else "; --help lists them"
            message = f"{message[: match.start()]}{match.group(1)!r} is none"
            message += f"; is {near[0]} meant?" if near else listed
        super().error(message)


def parser() -> argparse.ArgumentParser:
    """Returns the parser of all commands."""
    from . import wallet_command

    about = "The files of the contract host, for people. docs/TOOLS.md has examples."
    top = Parser(prog="soroban-files", description=about)
    top.add_argument("--version", action="version", version=f"soroban-files {__version__}")
    commands = top.add_subparsers(metavar="COMMAND", required=True)

    def command(name: str, do: Any, help_: str) -> argparse.ArgumentParser:
        added = commands.add_parser(name, help=help_, description=help_)
        added.set_defaults(do=do)
        return added

    kinds = f"files: {', '.join(schema.FILES)}; parts of them: {', '.join(schema.PARTS)}"

    def kind_of(added: argparse.ArgumentParser) -> None:
        added.add_argument("kind", metavar="KIND", choices=schema.KINDS, help=kinds)

    decode = command("decode", do_decode, "print a file as JSON")
    kind_of(decode)
    decode.add_argument("file", metavar="FILE", help="- is the standard input")
    decode.add_argument("--base64", action="store_true", help="the file is base64 text")
    decode.add_argument("--unchecked", action="store_true", help="of a ledger: only its spelling has to be right")
    decode.add_argument("--compact", action="store_true", help="on one line")

    encode = command("encode", do_encode, "make a file of JSON")
    kind_of(encode)
    encode.add_argument("file", metavar="JSON", nargs="?", default="-", help="by default the standard input")
    encode.add_argument("--out", metavar="FILE", help="by default the standard output")
    encode.add_argument("--base64", action="store_true", help="write base64 text")
    encode.add_argument("--unchecked", action="store_true", help="of a ledger: write it also if the program refuses it")

    difference = command("diff", do_diff, "what changed from one ledger to another")
    difference.add_argument("before", metavar="LEDGER", help="the earlier one")
    difference.add_argument("after", metavar="LEDGER", help="the later one")
    difference.add_argument("--json", action="store_true", help="as JSON")

    place = command(
        "where", do_where, "what stands at an offset at which a file is refused, and what could stand there"
    )
    kind_of(place)
    place.add_argument("file", metavar="FILE", help="- is the standard input")
    place.add_argument("offset", metavar="OFFSET", type=int, nargs="?", help="of `refused at OFFSET`, from 0")
    place.add_argument("--record", metavar="INDEX", type=int, help="of `ledger refused: 2 at INDEX`: the record")
    place.add_argument("--base64", action="store_true", help="the file is base64 text; offsets count decoded bytes")

    wallet_command.add(commands.add_parser("wallet", help="keys, envelopes, signatures and verdicts"))

    checked = command("lint", do_lint, "what is wrong with a module, in more words than vet's")
    checked.add_argument("module", metavar="MODULE", help="a WebAssembly module; - is the standard input")
    checked.add_argument(
        "--program", metavar="FILE", help="the built program, whose vet names a function that is ill typed"
    )

    explored = command("explore", do_explore, "a page (HTML) of a closed ledger")
    inputs = {"ledger": "the ledger before", "set": "the set", "report": "the report", "next": "the ledger after"}
    for name, help_ in inputs.items():
        explored.add_argument(name, metavar=name.upper(), help=help_)
    explored.add_argument(
        "--log", metavar="FILE", help="the change log: the page also shows what each transaction changed"
    )
    explored.add_argument("--out", metavar="FILE", help="by default the standard output")
    explored.add_argument("--base64", action="store_true", help="the set is base64 text")
    explored.add_argument("--theme", choices=("light", "dark"), default="", help="by default the reader's own")
    explored.add_argument("--names", metavar="JSON", help="what to call addresses: an object of strkeys and names")
    return top


def main(arguments: Optional[List[str]] = None) -> int:
    """Runs the command; returns its status."""
    words = parser().parse_args(arguments)
    try:
        return int(words.do(words))
    except Fault as fault:
        print(fault, file=sys.stderr)
        return fault.status
    except ledgers.LedgerRefusal as refusal:
        print(f"{refusal}: {refusal.why}", file=sys.stderr)
        return 3
    except changes.Unfit as unfit:
        print(f"{unfit}: {unfit.why}", file=sys.stderr)
        return 8
    except (Misfit, ValueError, NoProgram, Refused, wallet.NoCryptography) as error:
        print(error, file=sys.stderr)
        return 1


def entry() -> None:
    """Runs the command for the script that pip installs."""
    sys.exit(main())
