"""The readers of logs and lists of bench/hostile.py: for each input its name, three sizes, and for a size the words of a command
and the files that it reads.

An input of ten times the size has ten times the bytes, so that a reader that takes time by their number takes ten times as long.
A copy of a large part for each of many small ones shows as a hundred times.
"""

from building import envelope
from contracts import CALLER, Turn, contract_records, ledger as ledger_of, looping, operation, value_u32, vector, voids
from contracts import code_key as key_of_code, data_record as record_of, envelope as calling_envelope, instance_key
from contracts import transaction as calling_transaction
from hostile_acts import LARGE, MEDIUM, SMALL, alike
from ledgers import key, words
from program_files import (
    ZEROS, array, bump_transaction, code_key, code_record, contract, counter_key, counting_records, data_key, data_record, drawn,
    generated_ledger, ledger_file, logged, sha256, transaction, u32, u64, value_u32 as u32_value,
)  # fmt: skip
from program_files import envelope as envelope_of
from recordings import account, demanding

TIME = ["--close-time", "1001"]
STORED = ["--report", "report", "--ledger-out", "next"]
NOTHING = ledger_file([])


# ---- logs


def log_of(stages):
    """The file of a log from ledger 100 to ledger 101. A stage is lists of groups, one for each transaction."""
    listed = [array([array([change for group in groups for change in group]) for groups in stage]) + array([]) for stage in stages]
    return u32(100) + u64(1000) + u64(1001) + array(listed)


def made(record):
    return [u32(0) + entry for entry in logged(record)]


def gone(record):
    hashed_key = u32(9) + sha256(record[0])
    return [*(u32(3) + entry for entry in logged(record)), u32(2) + record[0], u32(2) + hashed_key]


def altered(old, new):
    """The group of an entry whose life stays."""
    return [*(u32(3) + entry for entry in logged(old)), u32(1) + logged(new)[0]]


def at_counter(number, value=u32_value(0)):
    """The record of a value at the counter of a contract."""
    return data_record(counter_key(number), value)


def wide_value(number):
    """A vec of 1,000 items, which differs from others in the last one."""
    return words(16, 1, 1_000) + words(1) * 999 + u32_value(number)


def wide_key(number):
    return data_key(contract(0), wide_value(number))


def alike_key(number):
    """A key of 1,000 items that differs from others in the last 320. All have the fingerprint that `build` compares first.

    The fingerprint is a polynomial of the bytes at 257, modulo 2^64. For each of ten binary digits there are 32 items 0 or 1 by the
    sequence of Thue and Morse, or the other way round. The difference is a multiple of the product of 257^(8 * 2^i) - 1 for i below 5,
    and so of 2^64.
    """
    items = [u32_value((it.bit_count() + (number >> digit)) % 2) for digit in range(9, -1, -1) for it in range(32)]
    return data_key(contract(0), words(16, 1, 1_000) + words(1) * 680 + b"".join(items))


def at_wide_key(number):
    """The record of a key of 1,000 items, which differs from others in the last one."""
    return data_record(wide_key(number), u32_value(0))


def playing(stages_of, before=lambda size: [], after=None):
    """The command that plays a log on the ledger before it; with the ledger after it, backwards. All are functions of the size."""

    def made_for(size):
        ledger = ledger_file(before(size)) if after is None else ledger_file(after(size), number=101, time=1001)
        back = ["--back", "0" if after is None else "1"]
        files = {"log": log_of(stages_of(size)), "ledger": ledger}
        return ["play", *back, "--log", "log", "--ledger", "ledger", "--ledger-out", "next"], files

    return made_for


def counters(size):
    return [at_counter(number) for number in range(size)]


def one_list(groups):
    """A stage of one transaction with these groups."""
    return [[groups]]


def turned(size):
    """Alterations of one entry of 1,000 items, each in the last item, in a list each."""
    states = [at_counter(0, wide_value(turn)) for turn in range(size + 1)]
    return [[[altered(*pair)] for pair in zip(states, states[1:])]]


PLAYED = [
    ("`play`, n stages without transactions", MEDIUM, playing(lambda n: [[]] * n)),
    ("`play`, n lists without groups", MEDIUM, playing(lambda n: [[[]] * n])),
    ("`play`, a list that makes n entries", MEDIUM, playing(lambda n: one_list([made(it) for it in counters(n)]))),
    ("`play`, n lists that each make an entry before all others", MEDIUM, playing(lambda n: [[[made(it)] for it in counters(n)[::-1]]])),
    ("`play`, n lists that each take out the first entry", MEDIUM, playing(lambda n: [[[gone(it)] for it in counters(n)]], counters)),
    ("`play --back 1`, the same", MEDIUM, playing(lambda n: [[[gone(it)] for it in counters(n)]], after=lambda n: [])),
    ("`play`, n entries whose keys differ in the last of 1,000 items", SMALL, playing(
        lambda n: one_list([made(at_wide_key(number)) for number in range(n)]))),
    ("`play`, n changes of an entry of 1,000 items", SMALL, playing(
        turned, lambda n: [at_counter(0, wide_value(0))])),
    ("`play`, a code of n bytes is made", LARGE, playing(lambda n: one_list([made(code_record(bytes(n)))]))),
]  # fmt: skip


# ---- lists, and the sets that `build` makes of them


def building(envelopes_of, clusters=1024):
    """The command that builds a set of a list, which is a function of the size."""
    return lambda size: (["build", "--clusters", str(clusters), "--list", "list", "--set", "set"], {"list": array(envelopes_of(size))})


def opening(size):
    """Envelopes of which each third conflicts with the two before it, and opens a stage."""
    names = [[key(number - number % 3 + it) for it in ((0,), (1,), (0, 1))[number % 3]] for number in range(size)]
    return [envelope(number, [], keys) for number, keys in enumerate(names)]


BUILT = [
    ("`build`, n envelopes without keys", MEDIUM, building(lambda n: [envelope(number, [], []) for number in range(n)])),
    ("`build`, n envelopes, a key each", MEDIUM, building(lambda n: [envelope(number, [], [key(number)]) for number in range(n)])),
    ("`build`, n envelopes, a key each, into one cluster", MEDIUM, building(
        lambda n: [envelope(number, [], [key(number)]) for number in range(n)], 1)),
    ("`build`, n envelopes of the same key", MEDIUM, building(lambda n: [envelope(number, [], [key(0)]) for number in range(n)])),
    ("`build`, n envelopes, each third opens a stage", MEDIUM, building(opening)),
    ("`build`, n envelopes whose keys differ in the last of 1,000 items", SMALL, building(
        lambda n: [envelope(number, [], [wide_key(number)]) for number in range(n)])),
    ("`build`, n envelopes, such keys that have one fingerprint", SMALL, building(
        lambda n: [envelope(number, [], [alike_key(number)]) for number in range(n)])),
    ("`build`, an envelope of n keys", MEDIUM, building(lambda n: [envelope(0, [], [key(number) for number in range(n)])])),
]  # fmt: skip


# ---- lists that are applied


def extension(code, number=0):
    """A transaction that lets a code live for 10,000 and some ledgers more."""
    return transaction(number, u32(25) + u32(0) + u32(10_000 + number), [code_key(code)], [], (0, 2**32 - 1, 0))


def code_of(size):
    """A code of 60 bytes for each of so many transactions, whose bytes do not count."""
    return bytes(60 * size)


def extended(size):
    """A code of 60 n bytes in a ledger, and n extensions of it."""
    code = code_of(size)
    return ledger_file([code_record(code)]), [extension(code, number) for number in range(size)]


def listing(of):
    """The command that applies a list. The ledger and the envelopes are made by a function of the size."""

    def made_for(size):
        ledger, envelopes = of(size)
        files = {"list": array(envelopes), "ledger": ledger, "verdicts": u32(0)}
        given = [word for name in files for word in (f"--{name}", name)]
        return ["apply-list", "--workers", "1", *TIME, *given, *STORED], files

    return made_for


def called(size):
    """Calls of the contracts of a generated set: all but the first of each contract run again."""
    calls = [envelope_of(bump_transaction(index + 1, number)) for index, number in enumerate(drawn(size, 1))]
    return generated_ledger(), calls


def called_once(size):
    """A call of each of n contracts: all runs are kept."""
    calls = [envelope_of(bump_transaction(number + 1, number)) for number in range(size)]
    return ledger_file(counting_records([0] * size)), calls


def declared(size):
    """An envelope of an extension of n keys without entries."""
    names = [counter_key(number) for number in range(size)]
    return NOTHING, [envelope_of(transaction(0, u32(25) + u32(0) + u32(500), names, [], (0, 2**32 - 1, 0)))]


LISTED = [
    ("`apply-list`, n envelopes without operations", MEDIUM, listing(
        lambda n: (NOTHING, [envelope(number, [], []) for number in range(n)]))),
    ("`apply-list`, n calls of 64 contracts", SMALL, listing(called)),
    ("`apply-list`, n calls, a contract each", SMALL, listing(called_once)),
    ("`apply-list`, an extension of n keys", MEDIUM, listing(declared)),
    ("`apply-list`, n extensions of a code of 60 n bytes", SMALL, listing(
        lambda n: (extended(n)[0], [envelope_of(it) for it in extended(n)[1]]))),
]  # fmt: skip


# ---- sets that are applied with a log


def set_of(stages):
    """The file of a set with one phase of stages, which are lists of clusters, which are lists of envelopes."""
    return u32(1) + ZEROS + array([u32(1) + u32(0) + array([array([array(cluster) for cluster in stage]) for stage in stages])])


def applying(of, *more):
    """The command that applies a set. The ledger and the stages are made by a function of the size."""

    def made_for(size):
        ledger, stages = of(size)
        files = {"set": set_of(stages), "ledger": ledger, "verdicts": u32(0)}
        given = [word for name in files for word in (f"--{name}", name)]
        return ["apply", "--workers", "1", *TIME, *given, *STORED, *more], files

    return made_for


def extended_set(size):
    ledger, extensions = extended(size)
    return ledger, [[[envelope_of(it) for it in extensions]]]


def idle_writers(size):
    """Transactions without operations, each of which declares an entry of 60 n bytes read-write."""
    ledger = ledger_file([at_counter(0, voids(15 * size))])
    return ledger, [[[envelope(number, [], [counter_key(0)]) for number in range(size)]]]


def idle_stages(size):
    """A stage for each transaction without operations."""
    return NOTHING, [[[envelope(number, [], [])]] for number in range(size)]


def idle_writer(size):
    """One transaction without operations, which declares n entries read-write."""
    return ledger_file(counters(size)), [[[envelope(0, [], [counter_key(number) for number in range(size)])]]]


def declared_alike(size):
    """One call that does nothing. It declares sixteen keys of n items that differ in the last one."""
    code = looping(Turn())
    read_only = [instance_key(CALLER), key_of_code(code)]
    read_write = [record_of(CALLER, it, it)[0] for it in alike(size)]
    called_ = operation(CALLER, "f", [value_u32(0)])
    calling = words(2) + calling_transaction(called_, array(read_only) + array(read_write)) + words(0)
    return ledger_of(contract_records(CALLER, code)), [[[calling]]]


LOGGED = [
    (f"`apply{' --log' if more else ''}`, {name}", sizes, applying(of, *more))
    for name, sizes, of in (
        ("n stages of a transaction without operations", MEDIUM, idle_stages),
        ("a transaction without operations, n keys", MEDIUM, idle_writer),
        ("n transactions without operations that declare an entry of 60 n bytes", SMALL, idle_writers),
        ("n extensions of a code of 60 n bytes", SMALL, extended_set),
        ("a call that declares 16 keys of n items that differ in the last one", MEDIUM, declared_alike),
    )
    for more in ([], ["--log", "log"])
]


# ---- what is recorded


def recording(accounts_of):
    """The command that records n demands in one frame, of so many accounts."""

    def made_for(size):
        addresses = vector([account(1 + number % accounts_of(size)) for number in range(size + 1)])
        called_ = operation(CALLER, "f", [value_u32(size), addresses])
        files = {"tx": calling_envelope(called_), "ledger": ledger_of(contract_records(CALLER, looping(demanding())))}
        return ["record", *TIME, "--nonce", "1", "--expiration", "500", "--tx", "tx", "--ledger", "ledger", "--out", "out"], files

    return made_for


RECORDED = [
    ("`record`, n demands of an account each", SMALL, recording(lambda n: n + 1)),
    ("`record`, n demands of one account", SMALL, recording(lambda n: 1)),
]

FILES = PLAYED + BUILT + LISTED + LOGGED + RECORDED
