"""Inputs of commands, made by chance from the files of tables of cases and from those that `gen` makes.

tools/fuzz.py runs the program on them. An input is decided by its seed, its index, and the tables: the program has no part in it.
"""
import base64
import hashlib
import json
import pathlib
import random

import program_files
from case_bytes import spelled, without_remark
from program_cases import blocks, hex_file, words_of

TOP = pathlib.Path(__file__).resolve().parent.parent
TABLES = [*sorted((TOP / "crates/command_cases/data").glob("*.txt")), *sorted((TOP / "tools/program_cases").glob("*.txt"))]
# The kinds of files that two commands call by two names.
KINDS = {"tx": "envelope"}
# The longest file that is taken from a table, and the longest that is made, in bytes.
LONGEST = 1 << 16
MAGIC = b"\0asm\1\0\0\0"
# Counts, numbers of types, and numbers at the bounds of 32 bits.
WORDS = [*range(33), 99, 100, 101, 128, 255, 256, 1000, 1 << 16, 1 << 30, 1 << 31, (1 << 31) - 1, (1 << 32) - 1, (1 << 32) - 4]
GENERATED = [(1, 0), (3, 1), (20, 7), (60, 2)]


def commands():
    """Returns the commands of the program by their names, each with its options by their names."""
    listed = json.loads((TOP / "tools/commands.json").read_text(encoding="utf-8"))["commands"]
    return {it["name"]: {option["name"]: option for option in it["options"]} for it in listed}


class Sample:
    """A command of a table: the texts of its options, and the bytes of the files that it reads."""

    def __init__(self, command, options, files):
        self.command, self.options, self.files = command, options, files


class Input:
    """A command to be run: its words, what it finds at which names, and what is known of the right answer."""

    def __init__(self, command):
        self.command, self.options = command, {}
        # The words, the contents by name, the names that are read, each with its kind, and the names that are stored, in order.
        self.words, self.contents, self.reads, self.stores = [], {}, {}, []
        self.are_words_right = True

    def spell(self, known):
        """Makes the words of the options, in the order of the table of commands."""
        self.words = [self.command.encode()]
        for name in known:
            if name in self.options:
                self.words.append(f"--{name}".encode())
                self.words += [] if self.options[name] is None else [self.options[name].encode()]


# ---- the commands of tables


def options_of(known, words):
    """Returns the options that words give a command, or None if they are not understood."""
    options, rest = {}, [word.decode("utf-8", "replace") for word in words]
    while rest:
        name, equals, value = rest.pop(0).partition("=")
        option = known.get(name[2:])
        if not option or name[:2] != "--" or name[2:] in options:
            return None
        if "value" not in option:
            options[name[2:]] = None
        elif equals or rest:
            options[name[2:]] = value if equals else rest.pop(0)
    return options


def kind_of(name, options):
    """Returns the kind of the file that an option names."""
    return options.get("kind", "value") if name == "file" else KINDS.get(name, name)


def samples_of(table, known, text=None):
    """Yields the commands of a table, or of a part of its text, whose files are known and not too long."""
    names, files = {}, {}
    for _, line, below in blocks(text or table.read_text(encoding="utf-8")):
        kind, _, rest = line.partition(" ")
        name, _, more = rest.partition(" ")
        try:
            if kind == "text":
                names[name] = more.encode()
            elif kind == "let":
                names[name] = b"".join(spelled(names, without_remark(it)) for it in [more, *below])
            elif kind == "file":
                files[name] = spelled(names, without_remark(more))
            elif kind == "hex":
                files[name] = hex_file(table.parent / more)
            elif kind == "copy":
                files[name] = (table.parent / more).read_bytes()
            elif kind == "no":
                files.pop(rest, None)
            elif kind == "run":
                yield from sample_of(words_of(names, without_remark(rest).partition(" => ")[0]), files, known)
        except (KeyError, ValueError):
            continue


def sample_of(words, files, known):
    """Yields the sample of a command's words, if they are right and its files are there."""
    command = words[0].decode("utf-8", "replace") if words else ""
    options = options_of(known[command], words[1:]) if command in known else None
    if options is None or any(value not in known[command][name].get("words", [value]) for name, value in options.items()):
        return
    read = {name: files.get(options[name]) for name in options if known[command][name].get("access") == "read"}
    if all(content is not None and len(content) <= LONGEST for content in read.values()):
        yield Sample(command, options, read)


def generated_samples():
    """Yields samples with the files that `gen` makes."""
    for count, seed in GENERATED:
        ledger, verdicts = program_files.generated_ledger(), program_files.u32(0)
        files = {"set": program_files.generated_set(count, seed), "ledger": ledger, "verdicts": verdicts}
        applied = {"close-time": "1001", "workers": "3"}
        yield Sample("apply", applied, files)
        yield Sample("apply", {**applied, "log": "log"}, files)
        listed = program_files.generated_list(count, seed)
        yield Sample("build", {"clusters": "8"}, {"list": listed})
        for calls in (listed, program_files.bare_list(count, seed)):
            yield Sample("apply-list", applied, {"list": calls, "ledger": ledger, "verdicts": verdicts})
        log, after = (make(count, seed, 1001) for make in (program_files.generated_log, program_files.generated_next))
        yield Sample("play", {"back": "0"}, {"log": log, "ledger": ledger})
        yield Sample("play", {"back": "1"}, {"log": log, "ledger": after})
        yield Sample("migrate", {}, {"ledger": program_files.ledger_file(program_files.many_records(count), 1)})
        drawn = program_files.envelope(program_files.bump_transaction(count, program_files.drawn(count, seed)[0]))
        yield Sample("simulate", {"close-time": "1001"}, {"tx": drawn, "ledger": ledger, "verdicts": verdicts})
        yield Sample("record", {"close-time": "1001", "nonce": "5", "expiration": "150"}, {"tx": drawn, "ledger": ledger})


# ---- changes of bytes


def changed_word(chance, content, at):
    return content[:at] + chance.choice(WORDS).to_bytes(4, "big") + content[at + 4 :]


def changed_bits(chance, content, at):
    changed = bytearray(content)
    for _ in range(chance.randint(1, 3)):
        changed[chance.randrange(len(changed))] ^= 1 << chance.randrange(8)
    return bytes(changed)


def changed_count(chance, content, at):
    """Makes a number one more or one less."""
    number = int.from_bytes(content[at : at + 4], "big") + chance.choice((-2, -1, 1, 2))
    return content[:at] + (number % (1 << 32)).to_bytes(4, "big") + content[at + 4 :]


def cut(chance, content, at):
    return content[:at]


def removed(chance, content, at):
    return content[:at] + content[at + 4 * chance.randint(1, 20) :]


def doubled(chance, content, at):
    """Repeats a part, once or so often that a nest or a list becomes long."""
    end = min(len(content), at + 4 * chance.randint(1, 40))
    times = chance.choice((1, 1, 1, 2, 5, 98, 99, 100, 300))
    return content[:end] + content[at:end] * times + content[end:]


def nested(chance, content, at):
    """Puts vecs or maps of one item round what stands there."""
    level = chance.choice(("000000100000000100000001", "00000011000000010000000100000001"))
    return content[:at] + bytes.fromhex(level) * chance.choice((1, 2, 50, 97, 98, 99, 100, 200)) + content[at:]


def spliced(chance, content, at, other):
    """Puts a part of another file there, in place of a part or between two."""
    start = 4 * chance.randrange(len(other) // 4 + 1)
    part = other[start : start + 4 * chance.randint(1, 60)]
    return content[:at] + part + content[at + chance.choice((0, len(part))) :]


CHANGES = [changed_word, changed_word, changed_bits, changed_count, changed_count, cut, removed, doubled, nested]


def changed_code(chance, code):
    """Changes bytes of a module behind its head: few enough that it may still be one."""
    new = bytearray(code)
    for _ in range(chance.choice((1, 1, 1, 2, 4))):
        place = chance.randrange(len(MAGIC), len(code))
        new[place] = chance.choice((new[place] ^ (1 << chance.randrange(8)), chance.randrange(256), new[place - 1]))
    return bytes(new)


def codes_of(ledger):
    """Returns the codes of a ledger, in the order of their records."""
    codes, at = [], ledger.find(MAGIC, 4)
    while at >= 0:
        codes.append(ledger[at : at + int.from_bytes(ledger[at - 4 : at], "big")])
        at = ledger.find(MAGIC, at + 1)
    return [code for code in codes if len(code) > len(MAGIC)]


def change_code(chance, contents):
    """Changes a code of the ledger, and its hashes in all files, so that the changed code runs. Returns whether it could."""
    codes = codes_of(contents.get("ledger", b""))
    for _ in range(30 if codes else 0):
        number = chance.randrange(len(codes))
        new = changed_code(chance, codes[number])
        hashes = [hashlib.sha256(code).digest() for code in [*codes[:number], new, *codes[number + 1 :]]]
        # The records have to stay in order.
        if hashes == sorted(hashes):
            replace_code(contents, codes[number], new)
            return True
    return False


def replace_code(contents, old, new):
    """Puts a code of the same length in place of another, and its hash and that of its key in place of the other's."""
    before, after = (hashlib.sha256(code).digest() for code in (old, new))
    keys = [hashlib.sha256(program_files.u32(program_files.CONTRACT_CODE) + it).digest() for it in (before, after)]
    for name, content in contents.items():
        contents[name] = content.replace(old, new).replace(before, after).replace(*keys)


def change_all(chance, contents):
    """Changes a word that stands behind the same word in two files, in all files, so that they still fit each other: a value in a
    ledger and in its log, a limit in a set. Returns whether it could."""
    names = [name for name, content in contents.items() if len(content) >= 8]
    for _ in range(30 if len(names) > 1 else 0):
        one, other = chance.sample(names, 2)
        at = 4 * chance.randrange(len(contents[one]) // 4 - 1)
        old = contents[one][at : at + 8]
        if old in contents[other] and any(old):
            change = changed_bits if chance.random() < 0.7 else changed_word
            new = old[:4] + change(chance, old[4:], 0)
            for name, content in contents.items():
                contents[name] = content.replace(old, new)
            return True
    return False


# ---- inputs


class Inputs:
    """All inputs of a seed."""

    def __init__(self, seed, tables, only):
        self.seed, self.known = seed, commands()
        self.samples, self.pool, seen = {}, {}, set()
        found = [it for table in tables for it in samples_of(table, self.known)] + list(generated_samples())
        codes = dict.fromkeys(code for it in found for code in codes_of(it.files.get("ledger", b"")))
        for sample in [*found, *(Sample("vet", {}, {"module": code}) for code in codes)]:
            self.samples.setdefault(sample.command, []).append(sample)
            for name, content in sample.files.items():
                kind = kind_of(name, sample.options)
                if (kind, content) not in seen:
                    seen.add((kind, content))
                    self.pool.setdefault(kind, []).append(content)
        self.all = [it for kind in sorted(self.pool) for it in self.pool[kind]]
        # A command that reads more files has more that can go wrong.
        self.weights = {
            name: 1 + sum(option.get("access") == "read" for option in options.values())
            for name, options in self.known.items()
            if name in (only or self.known)
        }

    def input(self, index):
        """Returns the input of an index."""
        chance = random.Random(f"{self.seed}/{index}")
        command = chance.choices(list(self.weights), list(self.weights.values()))[0]
        samples = self.samples.get(command)
        sample = chance.choice(samples) if samples else Sample(command, {}, {})
        made = Input(command)
        for name, option in self.known[command].items():
            self.give(chance, made, sample, name, option)
        for name, option in self.known[command].items():
            if name in made.options and option.get("excludes") in made.options:
                # The words are wrong with both.
                del made.options[name]
                made.stores.remove(name)
        self.change_files(chance, made)
        made.spell(self.known[command])
        if chance.random() < 0.03:
            self.spoil_words(chance, made)
        return made

    def give(self, chance, made, sample, name, option):
        """Gives an option its value, and puts its file there."""
        is_given = name in sample.options
        if option.get("optional") or "value" not in option:
            if option.get("needs", name) not in {name, *made.options} or not (is_given ^ (chance.random() < 0.05)):
                return
        access = option.get("access")
        if access == "read":
            made.options[name] = name
            made.reads[name] = kind_of(name, made.options)
            content = sample.files.get(name)
            if content is None or chance.random() < 0.05:
                content = chance.choice(self.pool.get(made.reads[name], self.all))
            made.contents[name] = content
        elif access == "store":
            made.options[name] = name
            made.stores.append(name)
        elif "words" in option:
            value = sample.options.get(name)
            made.options[name] = value if value in option["words"] else chance.choice(option["words"])
        elif "least" in option:
            made.options[name] = self.number(chance, option, sample.options.get(name))
        else:
            made.options[name] = None

    def number(self, chance, option, given):
        """Returns the text of a number in its bounds, most often that of the sample, or a small one."""
        least, greatest = option["least"], option["greatest"]
        small = min(greatest, least + chance.choice((0, 1, 2, 7, 63, 500)))
        # A command takes time by the count.
        most = 1000 if option["name"] == "count" else greatest
        if given and given.isdigit() and least <= int(given) <= most and chance.random() < 0.8:
            return given
        return str(chance.choice((small, least, most, chance.randint(least, most))))

    def change_files(self, chance, made):
        """Changes files that are read, and puts something at names that are stored."""
        has_changed = chance.random() < 0.3 and change_code(chance, made.contents)
        has_changed = has_changed or (chance.random() < 0.15 and change_all(chance, made.contents))
        if made.contents and chance.random() < (0.2 if has_changed else 0.95):
            for _ in range(chance.choice((1, 1, 1, 2, 3))):
                # Most changes of these files are refused, and then nothing runs.
                weights = [1 if kind in ("ledger", "verdicts") else 3 for kind in made.reads.values()]
                name = chance.choices(list(made.reads), weights)[0]
                made.contents[name] = self.changed(chance, made.contents[name], made.reads[name])[: 4 * LONGEST]
        if "base64" in made.options:
            name = next(iter(made.reads)) if made.command != "apply" else "set"
            made.contents[name] = base64.b64encode(made.contents[name])
            if chance.random() < 0.2:
                made.contents[name] = changed_bits(chance, made.contents[name] or b"A", 0)
        if made.contents and chance.random() < 0.02:
            del made.contents[chance.choice(list(made.contents))]
        for name in made.stores:
            if chance.random() < 0.5:
                made.contents[name] = chance.choice((b"", b"old", bytes(1000)))

    def changed(self, chance, content, kind):
        """Returns bytes with one change. In a module each byte counts, elsewhere most often each word."""
        if kind == "module" and len(content) > len(MAGIC) and chance.random() < 0.6:
            return changed_code(chance, content)
        step = 1 if kind == "module" or chance.random() < 0.05 else 4
        at = step * chance.randrange(len(content) // step + 1)
        if chance.random() < 0.15:
            return spliced(chance, content, at, chance.choice(self.pool[kind] if chance.random() < 0.6 else self.all))
        change = chance.choice(CHANGES)
        return change(chance, content, at) if content else chance.choice(self.all)

    def spoil_words(self, chance, made):
        """Makes the words wrong."""
        made.are_words_right = False
        spoil = chance.randrange(6)
        if spoil == 0:
            made.words.append(chance.choice((b"", b"more", b"--no-such", b"-", b"\xff", b"--set=")))
        elif spoil == 1:
            made.words[0] = chance.choice((b"", b"Apply", b"help", b"--help", b"--version", b"\xc3"))
        elif spoil == 2:
            made.words.append(made.words[1])
        elif spoil == 3:
            del made.words[1:3]
        elif spoil == 4:
            made.words += [b"--base64"] * 2
        else:
            made.words = [] if chance.random() < 0.5 else made.words[:1]
