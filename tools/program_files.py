"""Large files and what commands make of them, by docs/FORMATS.md and docs/RULES.md alone.

The tables that tools/program_cases.py runs name these.

Each function that a table names takes words and returns bytes. Nothing here comes from the program.
"""
import base64 as base64_text
import functools
import hashlib
import pathlib

TOP = pathlib.Path(__file__).resolve().parent.parent
EXAMPLE = TOP / "crates" / "command_cases" / "data" / "example"
TABLES = TOP / "tools" / "program_cases"
NETWORK = bytes([7]) * 32
ZEROS = bytes(32)
PERSISTENT = 1
CONTRACT_DATA, CONTRACT_CODE = 6, 7
# The terms of the eleven kinds of work, as generated ledgers have them: instructions (constant, linear), memory.
TERMS = [
    (1, 0, 0, 0), (0, 0, 16, 128), (0, 128, 0, 0), (0, 128, 0, 0), (10, 0, 0, 0), (5, 0, 0, 0),
    (0, 128, 0, 0), (0, 128, 0, 0), (100, 128, 0, 0), (1000, 128, 0, 128), (100, 0, 0, 0),
]  # fmt: skip


# ---- items of XDR


def u32(number):
    return number.to_bytes(4, "big")


def u64(number):
    return number.to_bytes(8, "big")


def opaque(bytes_):
    return u32(len(bytes_)) + bytes_ + bytes(-len(bytes_) % 4)


def array(items):
    return u32(len(items)) + b"".join(items)


def sha256(bytes_):
    return hashlib.sha256(bytes_).digest()


def hashed(bytes_):
    """Returns the text by which a table names a long file."""
    return f"{len(bytes_)} bytes, SHA-256 {sha256(bytes_).hex()}"


# ---- values, keys and entries


def value_u32(number):
    return u32(3) + u32(number)


def symbol(text):
    return u32(15) + opaque(text.encode())


def vec(items):
    return u32(16) + u32(1) + array(items)


def contract(number):
    """The address of a contract whose id is a number."""
    return u32(1) + number.to_bytes(32, "big")


def data_key(address, key):
    return u32(CONTRACT_DATA) + address + key + u32(PERSISTENT)


def instance_key(number):
    return data_key(contract(number), u32(20))


def counter_key(number):
    return data_key(contract(number), symbol("ab"))


def code_key(code):
    return u32(CONTRACT_CODE) + sha256(code)


def record(key, content, modified, until):
    """A record of a ledger's file, as its key and its bytes."""
    return key, u32(modified) + content + u32(0) + sha256(key) + u32(until)


def data_record(key, value, modified=50, until=5000):
    # The entry's own extension stands behind the type, and the rest is the key without its type.
    return record(key, key[:4] + u32(0) + key[4:] + value, modified, until)


def instance_record(number, code):
    return data_record(instance_key(number), u32(19) + u32(0) + sha256(code) + u32(0))


def code_record(code):
    return record(code_key(code), u32(CONTRACT_CODE) + u32(0) + sha256(code) + opaque(code), 50, 5000)


def ledger_file(records, version=2, number=100, time=1000):
    """A ledger's file. Its records stand in the order of the bytes of their keys."""
    head = u32(version) + NETWORK + (u32(23) if version == 2 else b"") + u32(number) + u64(time)
    settings = u32(16) + u32(4096) + u32(3110400) + u64(41943040) + b"".join(u32(term) for terms in TERMS for term in terms)
    return head + settings + array([bytes_ for _, bytes_ in sorted(records)])


def ledger_text(records, until, number=100, time=1000):
    """What `show` prints of a ledger whose records all live until one ledger."""
    lines = [f"seq {number} time {time} records {len(records)}"]
    lines += [f"{sha256(key).hex()} {until}" for key, _ in sorted(records)]
    return "".join(line + "\n" for line in lines).encode()


# ---- a ledger with many counters


def many_records(count):
    return [data_record(counter_key(number), value_u32(number)) for number in range(int(count))]


def many_counters(version, count):
    return ledger_file(many_records(count), int(version))


def many_counters_shown(count):
    return ledger_text(many_records(count), 5000)


# ---- transactions and sets


def call(number, function, args=()):
    return u32(24) + u32(0) + contract(number) + opaque(function.encode()) + array(args) + array([])


def transaction(sequence, body, read_only, read_write, resources):
    """A transaction of the account with the key 0, with one operation."""
    data = u32(0) + array(read_only) + array(read_write) + b"".join(map(u32, resources)) + u64(0)
    return u32(0) + ZEROS + u32(100) + u64(sequence) + u32(0) + u32(0) + u32(1) + u32(0) + body + u32(1) + data


def envelope(transaction_):
    return u32(2) + transaction_ + array([])


def set_file(stages):
    """A set with one phase of stages, which are lists of clusters, which are lists of transactions."""
    clusters = [[array([envelope(it) for it in cluster]) for cluster in stage] for stage in stages]
    return u32(1) + ZEROS + array([u32(1) + u32(0) + array([array(stage) for stage in clusters])])


def set_text(stages, sequence_of):
    """What `show` prints of a set whose transactions call contracts."""
    lines = []
    for stage, clusters in enumerate(stages):
        for cluster, members in enumerate(clusters):
            lines += [f"{stage} {cluster} {index} 24 {sequence_of[it]}\n" for index, it in enumerate(members)]
    return "".join(lines).encode()


def report_file(results):
    """The report of calls that all succeeded: a transaction and the success preimage of each."""
    head = NETWORK + u32(2)
    pairs = []
    for transaction_, preimage in results:
        success = u64(0) + u32(0) + array([u32(0) + u32(24) + u32(0) + sha256(preimage)]) + u32(0)
        pairs.append(sha256(head + transaction_) + success)
    return array(pairs) + b"".join(u32(1) + preimage for _, preimage in results)


def applied_text(number, count, report, ledger):
    """What `apply` prints of a set whose transactions all succeed."""
    lines = f"ledger {number}: {count} transactions, {count} succeeded, 0 failed\n"
    return (lines + f"report {sha256(report).hex()}\nledger {sha256(ledger).hex()}\n").encode()


# ---- what `gen` makes: calls of `bump`, which adds 1 to a counter and returns Void without an event

BUMPED = u32(1) + array([])


@functools.lru_cache()
def hex_digits(path):
    lines = path.read_text(encoding="utf-8").split("\n")
    return bytes.fromhex("".join(line.partition("#")[0] for line in lines))


def bump():
    return hex_digits(EXAMPLE / "module.hex")


def bump_transaction(sequence, number):
    keys = [instance_key(number), code_key(bump())]
    return transaction(sequence, call(number, "bump"), keys, [counter_key(number)], (2000, 356, 76))


def counting_records(counts, modified=101):
    """The records of contracts with counters, which were changed in a ledger if they are not 0."""
    records = [instance_record(number, bump()) for number in range(len(counts))]
    for number, count in enumerate(counts):
        records.append(data_record(counter_key(number), value_u32(count), modified if count else 50))
    return [code_record(bump()), *records]


@functools.lru_cache(maxsize=2)
def drawn(count, seed):
    """The contracts that generated transactions call."""
    numbers, state = [], seed
    for _ in range(count):
        state = (state * 6364136223846793005 + 1442695040888963407) % (1 << 64)
        numbers.append((state >> 33) % 64)
    return numbers


@functools.lru_cache(maxsize=2)
def generated_stages(count, seed):
    """The stages of a generated set: 512 transactions each, by the contract in 8 clusters."""
    numbers = drawn(count, seed)
    stages = []
    for first in range(0, count, 512):
        clusters = [[] for _ in range(8)]
        for index in range(first, min(first + 512, count)):
            clusters[numbers[index] % 8].append(bump_transaction(index + 1, numbers[index]))
        stages.append(clusters)
    return stages


def generated_set(count, seed):
    return set_file(generated_stages(int(count), int(seed)))


def generated_set_shown(count, seed):
    stages = generated_stages(int(count), int(seed))
    return set_text(stages, {it: int.from_bytes(it[40:48], "big") for stage in stages for cluster in stage for it in cluster})


def generated_ledger():
    return ledger_file(counting_records([0] * 64))


def generated_report(count, seed):
    return report_file([(it, BUMPED) for stage in generated_stages(int(count), int(seed)) for cluster in stage for it in cluster])


def generated_next(count, seed, time):
    numbers = drawn(int(count), int(seed))
    counts = [0] * 64
    for number in numbers:
        counts[number] += 1
    return ledger_file(counting_records(counts), number=101, time=int(time))


def logged(record_):
    """A record's entry and its TTL entry, as a change log has them."""
    bytes_ = record_[1]
    return bytes_[:-36], u32(0) + u32(9) + bytes_[-36:] + u32(0)


def counted(number, count):
    """The changes of a call of `bump` that adds 1 to a count. The counter's life stays."""
    old, life = logged(data_record(counter_key(number), value_u32(count), 101 if count else 50))
    new, _ = logged(data_record(counter_key(number), value_u32(count + 1), 101))
    return array([u32(3) + old, u32(3) + life, u32(1) + new])


def generated_log(count, seed, time):
    """The change log of the generated set. The ends of its stages change nothing."""
    numbers, counts, stages = drawn(int(count), int(seed)), [0] * 64, []
    for first in range(0, int(count), 512):
        lists = []
        for number in sorted(numbers[first : first + 512], key=lambda number: number % 8):
            lists.append(counted(number, counts[number]))
            counts[number] += 1
        stages.append(array(lists) + array([]))
    return u32(100) + u64(1000) + u64(int(time)) + array(stages)


def generated_applied(count, seed, time):
    return applied_text(101, int(count), generated_report(count, seed), generated_next(count, seed, time))


# ---- what `build` makes of those transactions


def generated_list(count, seed):
    """The list of the transactions, in the order in which they were drawn."""
    return array([envelope(bump_transaction(index + 1, number)) for index, number in enumerate(drawn(int(count), int(seed)))])


@functools.lru_cache(maxsize=2)
def built_stage(count, seed, most):
    """The only stage of the built set. Calls conflict if they are of one contract, so no call conflicts with two clusters."""
    clusters, cluster_of = [], {}
    for index, number in enumerate(drawn(count, seed)):
        if number not in cluster_of:
            if len(clusters) < most:
                clusters.append([])
                cluster_of[number] = len(clusters) - 1
            else:
                cluster_of[number] = min(range(most), key=lambda cluster: len(clusters[cluster]))
        clusters[cluster_of[number]].append(bump_transaction(index + 1, number))
    return clusters


def built_set(count, seed, most):
    return set_file([built_stage(int(count), int(seed), int(most))])


def built_report(count, seed, most):
    return report_file([(it, BUMPED) for cluster in built_stage(int(count), int(seed), int(most)) for it in cluster])


def built_applied(count, seed, most, time):
    return applied_text(101, int(count), built_report(count, seed, most), generated_next(count, seed, time))


# ---- what `apply-list` makes of the transactions in the order of the built set


def built_order(count, seed, most):
    return array([envelope(it) for cluster in built_stage(int(count), int(seed), int(most)) for it in cluster])


def built_listed(count, seed, most, time):
    return built_applied(count, seed, most, time) + kept_line(count, seed)


# ---- what `apply-list` makes of those transactions, if they declare no keys


def bare_transactions(count, seed):
    limits = (2000, 356, 76)
    return [transaction(index + 1, call(number, "bump"), [], [], limits) for index, number in enumerate(drawn(int(count), int(seed)))]


def bare_list(count, seed):
    return array([envelope(it) for it in bare_transactions(count, seed)])


def bare_report(count, seed):
    return report_file([(it, BUMPED) for it in bare_transactions(count, seed)])


def kept_line(count, seed):
    """A run on the opening ledger is kept if the call is the first one of its contract."""
    return f"kept {len(set(drawn(int(count), int(seed))))} of {count}\n".encode()


def bare_applied(count, seed, time):
    return applied_text(101, int(count), bare_report(count, seed), generated_next(count, seed, time)) + kept_line(count, seed)


def base64(maker, *words):
    """The text of what another function makes."""
    return base64_text.b64encode(globals()[maker](*words)) + b"\n"


# ---- everyday sizes: one stage of 17 clusters. The first has 301 transactions, which call `bump` of contract 0. The next 15
# have one call of `bump` each, and the last one has the call of everyday.c, which calls `bump` of contract 16.

MANY, ALONE, CALLED, EVERYDAY = 301, 15, 16, 1000
LONG_ARGUMENT = bytes(at % 251 for at in range(5000))


def everyday():
    return hex_digits(TABLES / "everyday.hex")


def everyday_transaction(sequence):
    args = [u32(13) + opaque(LONG_ARGUMENT), u32(18) + contract(CALLED)]
    keys = [instance_key(EVERYDAY), code_key(everyday()), instance_key(CALLED), code_key(bump())]
    return transaction(sequence, call(EVERYDAY, "everyday", args), keys, [counter_key(CALLED)], (10**6, 10**4, 10**4))


def everyday_preimage():
    """The items are 0 to 300, of which the first 65 are summed. The argument's last byte is 4999 modulo 251."""
    value = vec([value_u32(number) for number in (301, 300, 64 * 65 // 2, 5000, 230)])
    head = u32(0) + u32(1) + EVERYDAY.to_bytes(32, "big") + u32(1) + u32(0)
    return value + array([head + array([symbol("everyday"), value_u32(it)]) + value_u32(it * it) for it in range(6)])


def everyday_stage():
    clusters = [[bump_transaction(index + 1, 0) for index in range(MANY)]]
    clusters += [[bump_transaction(MANY + number, number)] for number in range(1, ALONE + 1)]
    return [*clusters, [everyday_transaction(MANY + ALONE + 1)]]


def everyday_records(counts, modified=101):
    return [code_record(everyday()), instance_record(EVERYDAY, everyday()), *counting_records(counts, modified)]


def everyday_set():
    return set_file([everyday_stage()])


def everyday_ledger():
    return ledger_file(everyday_records([0] * (CALLED + 1)))


def everyday_report():
    calls = [it for cluster in everyday_stage() for it in cluster]
    return report_file([(it, BUMPED) for it in calls[:-1]] + [(calls[-1], everyday_preimage())])


def everyday_next(time):
    return ledger_file(everyday_records([MANY, *[1] * ALONE, 5]), number=101, time=int(time))


def everyday_applied(time):
    return applied_text(101, MANY + ALONE + 1, everyday_report(), everyday_next(time))
