"""The command `soroban-files wallet`: keys, envelopes, limits, signatures and verdicts."""
from __future__ import annotations

import argparse
import os
import re
import secrets
import sys
from typing import Any, List, Optional

from . import envelopes, hashes, ledgers, results, schema, strkey, values, wallet
from .files import from_json
from .program import Program, can_tell_why
from .xdr import Json

KEY_HELP = "a seed (S..), a file that holds one, or name:TEXT for a test key that anybody can make"
NETWORK_HELP = "the network's id as 64 hex digits, or its passphrase"


def command_module() -> Any:
    """Returns the module with the functions over files; it imports this one."""
    from . import command

    return command


# ---- What words mean


def key_of(word: str) -> wallet.Key:
    """Returns the key that a word names."""
    if word.startswith("name:"):
        return wallet.Key.named(word[len("name:") :])
    if not re.fullmatch("S[A-Z2-7]{40,}", word):
        word = command_module().read_file(word).decode("ascii", "replace").strip()
    try:
        return wallet.Key.from_secret(word)
    except ValueError:  # whose text may have the seed
        raise ValueError("the seed is neither S.. with its checksum nor 64 hex digits") from None


def network_of(words: argparse.Namespace) -> str:
    """Returns the network's id, of --network or of the header of --ledger."""
    if words.network:
        is_id = re.fullmatch("[0-9a-fA-F]{64}", words.network)
        return str(words.network.lower()) if is_id else hashes.network_id(words.network)
    if getattr(words, "ledger", None):
        return str(ledgers.body(command_module().decoded("ledger", words.ledger))["network_id"])
    raise ValueError("say --network or --ledger")


def salt_of(word: str) -> bytes:
    """Returns a salt: 64 hex digits, or the hash of a text."""
    return bytes.fromhex(word) if re.fullmatch("[0-9a-fA-F]{64}", word) else envelopes.salt_of(word)


def ledger_key_of(word: str) -> Json:
    """Returns the ledger key of a contract's instance (C..), of a code (64 hex digits), or of JSON."""
    if word.startswith("{"):
        return from_json(word.encode())
    if re.fullmatch("[0-9a-fA-F]{64}", word):
        return envelopes.code_key(word.lower())
    if not word.startswith("C"):
        raise ValueError(f"{word!r} is no key: name a contract (C..), the hash of a code (64 hex digits), or a key as JSON")
    strkey.decode(word, "C")
    return envelopes.instance_key(word)


def close_time_of(words: argparse.Namespace, ledger: Json) -> int:
    """Returns the close time of the ledger that a transaction is for: that of the words, or 5 seconds after the last one's."""
    return int(ledgers.body(ledger)["close_time"]) + 5 if words.close_time is None else int(words.close_time)


def entries_of(words: argparse.Namespace, root: Json) -> List[Json]:
    """Returns the entries by which --authorize's addresses authorise a call or a create, unsigned."""
    found = []
    for who in words.authorize:
        if who == "source":
            found.append(envelopes.source_entry(root))
        elif words.until is None:
            raise ValueError("an entry of an address needs --until, the last ledger of its signature")
        else:
            nonce = secrets.randbits(63) if words.nonce is None else words.nonce
            found.append(envelopes.address_entry(who, root, nonce, words.until))
    return found


def node_of(host_function: Json, words: argparse.Namespace) -> Json:
    """Returns the root of the authorisation tree: the call or create, with the nodes of --below."""
    below = [
        schema.read(schema.INVOCATION, schema.write(schema.INVOCATION, from_json(text.encode())))
        for text in words.below
    ]
    return envelopes.node(host_function, below)


# ---- The commands


def do_key(words: argparse.Namespace) -> int:
    key = wallet.Key(os.urandom(32)) if words.key is None else key_of(words.key)
    if words.save:
        save_seed(words.save, key.secret)
    lines = [f"address {key.address}"]
    if words.id is not None:
        lines.append(f"muxed   {key.muxed(words.id)}")
    if words.secret or words.key is None and not words.save:
        lines.append(f"secret  {key.secret}")
    command_module().put_lines(lines)
    return 0


def save_seed(name: str, secret: str) -> None:
    """Writes a seed to a new file that only its owner can read."""
    try:
        with open(os.open(name, os.O_WRONLY | os.O_CREAT | os.O_EXCL, 0o600), "w", encoding="ascii") as file:
            file.write(secret + "\n")
    except OSError as error:
        raise command_module().Fault(4, f"fault on {name}: {error.strerror}") from None


def do_contract(words: argparse.Namespace) -> int:
    preimage = envelopes.preimage(words.deployer, salt_of(words.salt))
    command_module().put_lines([hashes.contract_id(network_of(words), preimage)])
    return 0


def build(words: argparse.Namespace, body: Json, data: Optional[Json] = None) -> int:
    made = envelopes.envelope(words.source, body, words.seq, words.fee, data)
    command_module().write_envelope(words.out, made)
    return 0


def do_call(words: argparse.Namespace) -> int:
    call = envelopes.call(words.contract, words.function, [values.parse(word) for word in words.args])
    return build(words, envelopes.invoke(call, entries_of(words, node_of(call, words))))


def do_upload(words: argparse.Namespace) -> int:
    return build(words, envelopes.invoke(envelopes.upload(command_module().read_file(words.module))))


def do_create(words: argparse.Namespace) -> int:
    deployer = words.deployer or words.source
    create = envelopes.create(words.code, deployer, salt_of(words.salt), [values.parse(word) for word in words.args])
    return build(words, envelopes.invoke(create, entries_of(words, node_of(create, words))))


def do_extend(words: argparse.Namespace) -> int:
    data = envelopes.soroban_data(read_only=[ledger_key_of(word) for word in words.keys])
    return build(words, envelopes.extend(words.ledgers), data)


def do_bump(words: argparse.Namespace) -> int:
    inner = envelope_in(words)
    if "tx" not in inner:
        raise ValueError("the envelope is a fee bump already")
    command_module().write_envelope(words.out, envelopes.fee_bump(inner, words.source, words.fee))
    return 0


def do_fill(words: argparse.Namespace) -> int:
    command = command_module()
    ledger, envelope = command.decoded("ledger", words.ledger), envelope_in(words)
    verdicts = command.decoded("verdicts", words.verdicts) if words.verdicts else []
    time = close_time_of(words, ledger)
    filled, simulated = wallet.filled(Program(words.program), envelope, ledger, verdicts, time, words.margin)
    outcome = results.word(simulated.result)
    if outcome != "success":
        if can_tell_why():
            files = (envelopes.xdr(envelope), schema.write(schema.LEDGER, ledger), schema.write(schema.VERDICTS, verdicts))
            print(Program(words.program).why(*files, time), end="", file=sys.stderr)
        raise ValueError(f"the simulation ends with {outcome}; nothing is written")
    command.write_envelope(words.out, filled)
    return 0


def do_record(words: argparse.Namespace) -> int:
    command = command_module()
    ledger, envelope = command.decoded("ledger", words.ledger), envelope_in(words)
    nonce = secrets.randbits(62) if words.nonce is None else words.nonce
    files = (envelopes.xdr(envelope), schema.write(schema.LEDGER, ledger))
    recorded = Program(words.program).record(*files, close_time_of(words, ledger), nonce, words.until)
    if recorded.caught:
        warn("a demand came in a call whose failure was caught: it may fail in another way with entries")
    given = envelopes.auth_entries(envelope)
    if given and not recorded.entries:
        warn(f"no demand was found, or nothing ran: {len(given)} entries were removed; simulate the envelope to see why")
    command.write_envelope(words.out, wallet.with_entries(envelope, recorded.entries))
    return 0


def do_list(words: argparse.Namespace) -> int:
    command = command_module()
    listed = [command.decoded("envelope", name, words.base64) for name in words.envelopes]
    command.write_file(words.out, schema.write(schema.LIST, listed))
    return 0


def do_sign(words: argparse.Namespace) -> int:
    signed = wallet.sign(envelope_in(words), network_of(words), *map(key_of, words.key))
    command_module().write_envelope(words.out, signed)
    return 0


def do_sign_entries(words: argparse.Namespace) -> int:
    envelope, keys = envelope_in(words), [key_of(word) for word in words.key]
    signers = wallet.signers_of(envelope)
    for key in keys:
        if key.address not in signers:
            warn(f"no entry is of {key.address}: nothing is signed with its key")
    signed = wallet.sign_entries(envelope, network_of(words), *keys)
    command_module().write_envelope(words.out, signed)
    return 0


def do_verify(words: argparse.Namespace) -> int:
    command = command_module()
    if not words.set and not words.envelopes:
        raise command.Fault(2, "name envelopes, or a set with --set")
    network = network_of(words)
    found = envelopes.envelopes_of(command.decoded("set", words.set, words.base64)) if words.set else []
    found += [command.decoded("envelope", name, words.base64) for name in words.envelopes]
    judged = [entry for envelope in found for entry in wallet.judge(envelope, network)]
    data = schema.write(schema.VERDICTS, wallet.verdicts_of(judged))
    lines = [f"{'bad ' if entry.fault else 'good'} {entry.account} signs {entry.payload}" for entry in judged]
    lines = [line + (f": {entry.fault}" if entry.fault else "") for line, entry in zip(lines, judged)]
    for envelope in found:
        signed = "" if wallet.signed_by(envelope, network) else "not "
        lines.append(f"transaction {hashes.envelope_hash(network, envelope)} is {signed}signed by its source")
    command.put_lines(lines)
    command.write_file(words.out, data)
    return 0


def do_set(words: argparse.Namespace) -> int:
    command = command_module()
    stages: List[List[List[Json]]] = [[]]
    for word in words.clusters:
        if word == "/":
            stages.append([])
        else:
            stages[-1].append([command.decoded("envelope", name, words.base64) for name in word.split(",")])
    data = schema.write(schema.SET, envelopes.parallel_set(stages, words.previous))
    command.write_file(words.out, data)
    return 0


def warn(text: str) -> None:
    """Prints a warning on the standard error."""
    print(text, file=sys.stderr)


def envelope_in(words: argparse.Namespace) -> Json:
    return command_module().decoded("envelope", words.envelope, words.base64)


# ---- Words


def add(parser: argparse.ArgumentParser) -> None:
    """Adds the commands of the wallet to its parser."""
    parser.description = (
        "Keys, envelopes, limits, signatures and verdicts. Without --out, an envelope is printed as base64."
    )
    commands = parser.add_subparsers(metavar="COMMAND", required=True)

    def command(name: str, do: Any, help_: str, out: bool = True) -> argparse.ArgumentParser:
        added = commands.add_parser(name, help=help_, description=help_)
        added.set_defaults(do=do)
        if out:
            added.add_argument("--out", metavar="FILE", help="the file that is written")
        return added

    key = command("key", do_key, "print the address of a key, or make a new one", out=False)
    key.add_argument("key", metavar="KEY", nargs="?", help=KEY_HELP)
    key.add_argument("--save", metavar="FILE", help="write the seed to a new file that only you can read")
    key.add_argument("--secret", action="store_true", help="print the seed, too")
    key.add_argument("--id", type=int, metavar="NUMBER", help="print the muxed address with this id, too")
    contract = command("contract", do_contract, "print the address that a create will have", out=False)
    contract.add_argument("deployer", metavar="DEPLOYER", help="the address that authorises the create")
    contract.add_argument("salt", metavar="SALT", help="64 hex digits, or a text whose hash is the salt")
    add_network(contract)
    add_builders(command)
    bump = command("bump", do_bump, "put a fee bump round an envelope")
    add_envelope(bump)
    bump.add_argument("--source", required=True, metavar="ADDRESS", help="who pays")
    bump.add_argument("--fee", type=int, default=200, help="by default 200")
    record = command("record", do_record, "find the authorisation entries that an envelope needs, and put them in")
    add_run(record)
    record.add_argument("--until", type=int, required=True, metavar="LEDGER", help="the last ledger of the signatures")
    record.add_argument("--nonce", type=int, metavar="NUMBER", help="of the first entry of an address; by default random")
    fill = command("fill", do_fill, "simulate an envelope, and put in its footprint and limits")
    add_run(fill)
    fill.add_argument("--verdicts", metavar="FILE", help="by default no verdicts")
    fill.add_argument("--margin", type=int, default=20, metavar="PERCENT", help="added to each limit; by default 20")
    for name, do, help_ in (
        ("sign", do_sign, "sign an envelope; of a fee bump the outer one"),
        ("sign-entries", do_sign_entries, "sign the authorisation entries of the keys' accounts"),
    ):
        sign = command(name, do, help_)
        add_envelope(sign)
        sign.add_argument("--key", action="append", required=True, metavar="KEY", help=KEY_HELP)
        add_network(sign)
    add_set(command("set", do_set, "put envelopes into a set", out=False))
    listed = command("list", do_list, "put envelopes into a list, for build and apply-list", out=False)
    listed.add_argument("envelopes", nargs="+", metavar="ENVELOPE", help="files of envelopes, in their order")
    listed.add_argument("--out", required=True, metavar="FILE", help="the list's file that is written")
    listed.add_argument("--base64", action="store_true", help="the envelopes are base64 text")
    verify = command(
        "verify", do_verify, "verify the signatures in authorisation entries, and write the verdicts", out=False
    )
    verify.add_argument("--out", required=True, metavar="FILE", help="the verdicts' file that is written")
    verify.add_argument("envelopes", nargs="*", metavar="ENVELOPE", help="files of envelopes")
    verify.add_argument("--set", metavar="FILE", help="all envelopes of a set")
    verify.add_argument("--base64", action="store_true", help="the inputs are base64 text")
    add_network(verify)


def add_network(parser: argparse.ArgumentParser) -> None:
    parser.add_argument("--network", metavar="NETWORK", help=NETWORK_HELP)
    parser.add_argument("--ledger", metavar="FILE", help="a ledger whose header names the network")


def add_set(parser: argparse.ArgumentParser) -> None:
    clusters = "envelopes with commas between them are a cluster; / begins the next stage: a.bin b.bin,c.bin / d.bin"
    parser.add_argument("clusters", nargs="+", metavar="CLUSTER", help=clusters)
    parser.add_argument("--out", required=True, metavar="FILE", help="the set's file that is written")
    parser.add_argument("--previous", default=envelopes.NO_HASH, metavar="HASH", help="the hash of the ledger before")
    parser.add_argument("--base64", action="store_true", help="the envelopes are base64 text")


def add_envelope(parser: argparse.ArgumentParser) -> None:
    parser.add_argument("envelope", metavar="ENVELOPE", help="- is the standard input")
    parser.add_argument("--base64", action="store_true", help="the envelope is base64 text")


def add_run(parser: argparse.ArgumentParser) -> None:
    """Adds the options of a command that runs an envelope by the program."""
    add_envelope(parser)
    parser.add_argument("--ledger", required=True, metavar="FILE", help="the ledger before the transaction")
    parser.add_argument("--close-time", type=int, metavar="SECONDS", help="by default 5 after the ledger's")
    parser.add_argument(
        "--program", metavar="FILE", help="the built program; by default SOROBAN_CMD, or that of the repository"
    )


def add_builders(command: Any) -> None:
    """Adds the commands that build an envelope."""
    call = command("call", do_call, "build an envelope that calls a contract")
    call.add_argument("contract", metavar="CONTRACT", help="the contract's address, C..")
    call.add_argument("function", metavar="FUNCTION", help="the function's name")
    call.add_argument(
        "args", nargs="*", metavar="VALUE", help="u32:5, i128:-7, symbol:abc, bytes:00ff, void, a strkey, or JSON"
    )
    upload = command("upload", do_upload, "build an envelope that uploads a module")
    upload.add_argument("module", metavar="MODULE", help="a WebAssembly module")
    create = command("create", do_create, "build an envelope that creates a contract")
    create.add_argument("code", metavar="HASH", help="the hash of the code")
    create.add_argument("args", nargs="*", metavar="VALUE", help="arguments of the constructor, as for call")
    create.add_argument("--salt", required=True, help="64 hex digits, or a text whose hash is the salt")
    create.add_argument("--deployer", metavar="ADDRESS", help="by default the source")
    extend = command("extend", do_extend, "build an envelope that extends entries")
    extend.add_argument("ledgers", type=int, metavar="LEDGERS", help="to live for so many ledgers from the next one on")
    extend.add_argument(
        "keys", nargs="+", metavar="KEY", help="a contract (C..), the hash of a code, or a ledger key as JSON"
    )
    for builder in (call, upload, create, extend):
        builder.add_argument("--source", required=True, metavar="ADDRESS", help="the source account, G.. or M..")
        builder.add_argument("--seq", type=int, default=1, metavar="NUMBER", help="the sequence number; by default 1")
        builder.add_argument("--fee", type=int, default=100, help="by default 100")
    for builder in (call, create):
        who = "`source`, or an address that will sign"
        builder.add_argument("--authorize", action="append", default=[], metavar="ADDRESS", help=who)
        builder.add_argument("--until", type=int, metavar="LEDGER", help="the last ledger of signatures")
        builder.add_argument("--nonce", type=int, metavar="NUMBER", help="by default one by chance")
        below = "an invocation that is authorised below the call"
        builder.add_argument("--below", action="append", default=[], metavar="JSON", help=below)
