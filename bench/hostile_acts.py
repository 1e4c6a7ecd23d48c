"""The acts of bench/hostile.py: for each its name, three sizes, and for a size two cases that differ by some acts.

A vec of VOIDs is the value with the most items for its bytes, so it is the worst for what is paid by bytes and done by items.
"""

from contracts import (
    ACCOUNT, CALLEE, CALLER, DROP, UNREACHABLE, VOID, VOID_WORD, Case, Turn, address, body, code_key, contract_records, data,
    data_record, invocation, looping, mapping, module, signed, symbol_word, value_u32, vector, voids,
)  # fmt: skip
from host_calls import AB, INSTANCE, PERSISTENT, call, constant, local_get, u32_word
from ledgers import words
from modules import I64, NOTHING, leb, many_exports, many_indirect_calls, many_locals, sized, vec
from modules import module as bare_module

KEY, FUNCTION = symbol_word("ab"), symbol_word("g")
SMALL, MEDIUM, LARGE = (10, 100, 1_000), (100, 1_000, 10_000), (1_000, 10_000, 100_000)
ZERO = u32_word(0)


def some(size):
    """So many turns that what they show, which stays in memory until the frame ends, is not too much, and twice as many."""
    turns = max(2, min(100, 20_000 // size))
    return turns, 2 * turns


def turning(do, arguments=lambda size: [], turns=some, **rest):
    """An act that is a turn. `do` makes the turn, and arguments and the rest of a case are functions of the size."""

    def cases(size):
        args = arguments(size)
        turn = Turn(len(args))
        do(turn)
        few, many = turns(size)
        how = {name: make(size) if callable(make) else make for name, make in rest.items()}
        return Case(turn, few, args, **how), Case(turn, many, args, **how), many - few

    return cases


def calls(name, *operands):
    """A turn that calls a function of the host, and drops its result. Operands are words, or texts: an argument's index."""
    return lambda turn: turn.host(name, *[turn.argument(int(it)) if isinstance(it, str) else it for it in operands]).drop()


def one(make):
    """One argument of a size."""
    return lambda size: [make(size)]


def numbered(count):
    """So many U32s, as keys with VOID."""
    return [(value_u32(number), VOID) for number in range(count)]


def numbers(count):
    """The map of so many U32s to VOID."""
    return mapping(numbered(count))


def with_number(make):
    """A value of a size, and the size."""
    return lambda size: [make(size), value_u32(size)]


# ---- functions over values


VALUES = [
    ("`map_get`, a vec of n", MEDIUM, turning(calls("map_get", "0", ZERO), one(lambda n: mapping([(value_u32(0), voids(n))])))),
    ("`map_has`, n members", MEDIUM, turning(calls("map_has", "0", ZERO), one(numbers))),
    ("`map_put`, n members", MEDIUM, turning(calls("map_put", "0", "1", VOID_WORD), with_number(numbers))),
    ("`map_del`, n members", MEDIUM, turning(calls("map_del", "0", ZERO), one(numbers))),
    ("`map_values`, n members", MEDIUM, turning(calls("map_values", "0"), one(numbers))),
    ("`vec_get`, a vec of n", MEDIUM, turning(calls("vec_get", "0", ZERO), one(lambda n: vector([voids(n)])))),
    ("`vec_push_back`, n items", MEDIUM, turning(calls("vec_push_back", "0", VOID_WORD), one(voids))),
    ("`vec_append`, n items twice", MEDIUM, turning(calls("vec_append", "0", "0"), one(voids))),
    ("`vec_slice`, n items", MEDIUM, turning(calls("vec_slice", "0", ZERO, "1"), with_number(voids))),
    ("`vec_first_index_of`, n items", MEDIUM, turning(calls("vec_first_index_of", "0", ZERO), one(voids))),
    ("`vec_unpack_to_linear_memory`, n empty vecs", MEDIUM, turning(
        calls("vec_unpack_to_linear_memory", "0", ZERO, "1"), with_number(lambda n: vector([vector([])] * n)), pages=2)),
    ("`vec_new_from_linear_memory`, n words", MEDIUM, turning(
        calls("vec_new_from_linear_memory", ZERO, "0"), one(value_u32), pages=2)),
    ("`obj_cmp`, n items twice", MEDIUM, turning(calls("obj_cmp", "0", "1"), lambda n: [voids(n), voids(n)])),
    ("`serialize_to_bytes`, n items", MEDIUM, turning(calls("serialize_to_bytes", "0"), one(voids))),
    ("`deserialize_from_bytes`, n items", MEDIUM, turning(
        calls("deserialize_from_bytes", "0"), one(lambda n: words(13, 12 + 4 * n) + voids(n)))),
    ("`bytes_get`, n bytes", LARGE, turning(calls("bytes_get", "0", ZERO), one(data))),
    ("`bytes_push`, n bytes", LARGE, turning(calls("bytes_push", "0", ZERO), one(data))),
    ("`bytes_append`, n bytes twice", LARGE, turning(calls("bytes_append", "0", "0"), one(data))),
    ("`bytes_to_string`, n bytes", LARGE, turning(calls("bytes_to_string", "0"), one(data))),
    ("`bytes_copy_from_linear_memory`, n bytes", LARGE, turning(
        calls("bytes_copy_from_linear_memory", "0", ZERO, ZERO, "1"), with_number(data), pages=2)),
    ("`bytes_copy_to_linear_memory`, n bytes", LARGE, turning(
        calls("bytes_copy_to_linear_memory", "0", ZERO, ZERO, "1"), with_number(data), pages=2)),
    ("`compute_hash_sha256`, n bytes", LARGE, turning(calls("compute_hash_sha256", "0"), one(data))),
]  # fmt: skip


# ---- the ledger


def at_ab(make):
    """The record of a value of a size at the key `ab`."""
    return lambda size: [data_record(CALLER, AB, make(size))]


def at_wide_key(size):
    """The record of VOID at a key of so many items."""
    return [data_record(CALLER, voids(size), VOID)]


def lengthens(turn):
    """A turn that lets the instance and the code live for one ledger more."""
    longer = constant(9_000) + local_get(0) + b"\x7d" + constant(32) + b"\x86" + constant(4) + b"\x84"
    turn.host("extend_current_contract_instance_and_code_ttl", longer, longer).drop()


def ending(size, number):
    """A vec of so many items, the last of which is the number."""
    return vector([VOID] * (size - 1) + [value_u32(number)])


def alike(size):
    """Sixteen keys of so many items that differ in the last one."""
    return [ending(size, number) for number in range(16)]


def has_each(turn):
    """A turn that looks at each of sixteen keys."""
    for number in range(16):
        turn.host("has_contract_data", turn.argument(number), PERSISTENT).drop()


WIDE = {"arguments": one(voids), "records": at_wide_key}
HELD = {"arguments": one(value_u32), "members": lambda n: numbered(n + 1)}
LEDGER = [
    ("`get_contract_data`, n items", MEDIUM, turning(calls("get_contract_data", KEY, PERSISTENT), records=at_ab(voids))),
    ("`put_contract_data`, n items", MEDIUM, turning(
        calls("put_contract_data", KEY, "0", PERSISTENT), one(voids), records=at_ab(voids))),
    ("`has_contract_data`, a key of n", MEDIUM, turning(calls("has_contract_data", "0", PERSISTENT), **WIDE)),
    ("`has_contract_data` of 16 keys of n that differ at their ends", MEDIUM, turning(has_each, alike)),
    ("`get_contract_data`, a key of n", MEDIUM, turning(calls("get_contract_data", "0", PERSISTENT), **WIDE)),
    ("`put_contract_data`, a key of n", MEDIUM, turning(calls("put_contract_data", "0", VOID_WORD, PERSISTENT), **WIDE)),
    ("`del_contract_data`, a key of n, no entry", MEDIUM, turning(calls("del_contract_data", "0", PERSISTENT), one(voids))),
    ("`extend_contract_data_ttl`, a key of n", MEDIUM, turning(
        calls("extend_contract_data_ttl", "0", PERSISTENT, ZERO, u32_word(100)), **WIDE)),
    ("an extension of the code, n bytes", LARGE, turning(lengthens, padding=lambda n: n)),
    ("instance `has`, n members", MEDIUM, turning(calls("has_contract_data", "0", INSTANCE), **HELD)),
    ("instance `get`, n members", MEDIUM, turning(calls("get_contract_data", "0", INSTANCE), **HELD)),
    ("instance `put`, n members", MEDIUM, turning(calls("put_contract_data", "0", ZERO, INSTANCE), **HELD)),
    ("instance `get`, a key of n", MEDIUM, turning(
        calls("get_contract_data", "0", INSTANCE), one(voids), members=lambda n: [(voids(n), VOID)])),
    ("`contract_event`, data of n", MEDIUM, turning(calls("contract_event", "0", "1"), lambda n: [vector([]), voids(n)])),
    ("`contract_event`, n topics", MEDIUM, turning(calls("contract_event", "0", VOID_WORD), one(voids))),
]  # fmt: skip


# ---- demands


def none_or_each(size):
    """No turn, and as many as the size."""
    return 0, size


def demands(turn):
    """A turn that demands of the source of the transaction a call with the arguments in a vec."""
    turn.host("require_auth_for_args", turn.argument(0), turn.argument(1)).drop()


def entries_for(count, args=(), below=()):
    """So many authorisation entries of the source, each for one call of `f`."""
    return [words(0) + invocation(CALLER, "f", args, below)] * count


def behind_alike(size):
    """Four entries for a call with an argument of so many items, behind sixteen whose argument ends in another item."""
    return [entry for arg in alike(size) for entry in entries_for(1, [arg])] + entries_for(4, [ending(size, 16)])


def signatures(size):
    """So many signed authorisation entries, and what the verdicts say of them."""
    return [signed(nonce, invocation(CALLER, "f", [])) for nonce in range(size)]


def demanding_below(size):
    """Calls of another contract, each of which demands one of the nodes below the root of one entry."""
    demand = Turn().host("require_auth", local_get(0))
    callee = contract_records(CALLEE, module([("g", 1, body(demand.code))], demand.imports))
    turn = Turn(4)
    demands(turn)
    turn.begins().host("call", turn.argument(2), FUNCTION, turn.argument(3)).drop()
    args = [ACCOUNT, vector([]), address(CALLEE), vector([ACCOUNT])]
    entries = entries_for(1, below=[invocation(CALLEE, "g", [ACCOUNT])] * size)
    few, many = (Case(turn, turns, args, records=callee, entries=entries) for turns in (0, size))
    return few, many, size


def demanding_in_vain(size):
    """Caught calls of another contract, each of which demands what none of so many entries authorises."""
    demand = Turn().host("require_auth", local_get(0))
    callee = contract_records(CALLEE, module([("g", 1, body(demand.code))], demand.imports))
    turn = Turn(2)
    turn.host("try_call", turn.argument(0), FUNCTION, turn.argument(1)).drop()
    args = [address(CALLEE), vector([ACCOUNT])]
    few, many = (Case(turn, turns, args, records=callee, entries=entries_for(size)) for turns in (10, 20))
    return few, many, 10


def demanding(args, entries, turns=none_or_each, **rest):
    """An act that is a demand, whose arguments and entries are functions of the size."""
    return turning(demands, lambda size: [ACCOUNT, vector(args(size))], turns, entries=entries, **rest)


DEMANDS = [
    ("a demand, n entries for one call", (20, 200, 2_000), demanding(lambda n: [], entries_for)),
    ("a demand, n signed entries for one call", SMALL, demanding(
        lambda n: [], lambda n: [entry for entry, _ in signatures(n)], verdicts=lambda n: [pair for _, pair in signatures(n)])),
    ("a demand with an argument of n, 100 entries", MEDIUM, demanding(
        lambda n: [voids(n)], lambda n: entries_for(100, [voids(n)]), lambda n: (1, 3))),
    ("a demand with n arguments, 100 entries", MEDIUM, demanding(
        lambda n: [VOID] * n, lambda n: entries_for(100, [VOID] * n), lambda n: (1, 3))),
    ("a demand with an argument of n, behind 16 entries that differ at its end", MEDIUM, demanding(
        lambda n: [ending(n, 16)], behind_alike, lambda n: (1, 3))),
    ("a call that demands one of n nodes below a root", SMALL, demanding_below),
    ("a caught call that demands what none of n entries has", (20, 200, 2_000), demanding_in_vain),
]  # fmt: skip


# ---- calls and creates


def calling(code_of, args=lambda size: [], function="call", held=lambda size: ()):
    """An act that calls a contract. Its module, the arguments and what its instance holds are functions of the size."""
    return turning(
        lambda turn: turn.host(function, turn.argument(0), FUNCTION, turn.argument(1)).drop(),
        lambda size: [address(CALLEE), vector(args(size))],
        lambda size: (2, 4),
        records=lambda size: contract_records(CALLEE, code_of(size), held(size)),
    )


def idle(arity=0, **rest):
    """The module of a contract whose `g` does nothing."""
    return module([("g", arity, body(VOID_WORD))], **rest)


def puts_and_fails(size):
    """The module of a contract whose `g` puts as many new entries as its argument says, and fails."""
    turn = Turn()
    turn.host("put_contract_data", turn.count(), VOID_WORD, constant(PERSISTENT)).drop()
    return looping(turn, "g", UNREACHABLE)


def puts_then_fails(turn):
    """A turn that puts a new entry, and calls a contract that fails."""
    turn.host("put_contract_data", turn.count(), VOID_WORD, constant(PERSISTENT)).drop()
    turn.host("try_call", turn.argument(0), FUNCTION, turn.argument(1)).drop()


def failing(size):
    """The records of a contract that fails, and its address and arguments."""
    return contract_records(CALLEE, module([("g", 0, body(UNREACHABLE))]))


def chained(size):
    """A call through so many contracts, each of which calls the first of a list with the rest of the list."""
    link = Turn()
    link.host("vec_len", local_get(0)).push(ZERO).push(b"\x52\x04\x40")
    link.host("vec_front", local_get(0)).push(FUNCTION).host("vec_new").host("vec_pop_front", local_get(0))
    link.host("vec_push_back").host("call").push(DROP + b"\x0b")
    code = module([("g", 1, body(link.code, VOID_WORD))], link.imports)
    records = [it for number in range(size) for it in contract_records(CALLEE + number, code)]
    turn = Turn(2)
    turn.host("call", turn.argument(0), FUNCTION, turn.argument(1)).drop()
    args = [address(CALLEE), vector([vector([address(CALLEE + number) for number in range(1, size)])])]
    few, many = (Case(turn, turns, args, records=records) for turns in (0, 1))
    return few, many, size


def hash_of(code):
    """The hash of a code as a value."""
    return words(13, 32) + code_key(code)[4:]


def creates(turn):
    """A turn that creates a contract, whose salt ends with the number of the turn."""
    turn.host("get_current_contract_address").push(turn.argument(0)).host("bytes_push", turn.argument(1), turn.count())
    if turn.arguments > 2:
        turn.host("create_contract_with_constructor", turn.argument(2)).drop()
    else:
        turn.host("create_contract").drop()


def creating(code_of, args=lambda size: []):
    """An act that creates a contract of a code that no contract has. The code and more arguments are functions of the size."""

    return turning(
        creates,
        lambda size: [hash_of(code_of(size)), data(31), *args(size)],
        lambda size: (2, 4),
        records=lambda size: contract_records(CALLEE, code_of(size))[:1],
    )


def built(size):
    """A module with a constructor of one argument."""
    return module([("__constructor", 1, body(VOID_WORD))])


CALLS = [
    ("`call`, an argument of n", MEDIUM, calling(lambda n: idle(1), lambda n: [voids(n)])),
    ("`call`, instance storage of n", MEDIUM, calling(lambda n: idle(), held=numbered)),
    ("`call`, a code of n bytes", LARGE, calling(lambda n: idle(padding=n))),
    ("`call`, n pages of memory", (1, 6, 60), calling(lambda n: idle(pages=n))),
    ("`call`, a function of n locals", (40, 400, 4_000), calling(lambda n: module([("g", 0, body(VOID_WORD, locals_=n))]))),
    ("each of n nested calls", (1, 6, 60), chained),
    ("`try_call` that fails behind n puts of new entries, with the put", SMALL, turning(
        puts_then_fails, lambda n: [address(CALLEE), vector([])], lambda n: (n, 2 * n), records=failing)),
    ("`try_call` that puts n entries and fails", SMALL, calling(puts_and_fails, lambda n: [value_u32(n)], "try_call")),
    ("`create_contract`, a code of n bytes", LARGE, creating(lambda n: idle(padding=n))),
    ("`update_current_contract_wasm`, a code of n bytes", LARGE, turning(
        calls("update_current_contract_wasm", "0"), lambda n: [hash_of(idle(padding=n))],
        records=lambda n: contract_records(CALLEE, idle(padding=n))[:1])),
    ("`create_contract_with_constructor`, an argument of n", MEDIUM, creating(built, lambda n: [vector([voids(n)])])),
]  # fmt: skip


# ---- modules


BYTES = (1_000, 10_000, 100_000)


def sections(*parts):
    """A module of these sections: pairs of a number and bytes."""
    return b"\x00asm\x01\x00\x00\x00" + b"".join(bytes([number]) + sized(part) for number, part in parts)


def with_body(code):
    """A module with one function of this code."""
    return bare_module([NOTHING], [(0, b"\x00" + code + b"\x0b")])


def many_targets(size):
    """A `br_table` of many labels."""
    return with_body(b"\x02\x40\x41\x00\x0e" + vec([b"\x00"] * size) + b"\x00\x0b")


def many_blocks(size):
    """Many blocks, in groups of 100 that are nested."""
    return with_body((b"\x02\x40" * 100 + b"\x0b" * 100) * (size // 300))


def many_drops(size):
    """Constants that are dropped."""
    return with_body(b"\x41\x00\x1a" * (size // 3))


def many_unreachable(size):
    """Instructions behind `unreachable`, which take any operands."""
    return with_body(b"\x00" + b"\x1b" * size + DROP)


def many_types(size):
    return sections((1, vec([NOTHING] * (size // 3))))


def many_functions(size):
    return bare_module([NOTHING], [(0, b"\x00\x0b")] * (size // 4))


def many_imports(size):
    """One function of the host, imported many times."""
    return sections((1, vec([b"\x60" + vec([]) + vec([I64])])), (2, vec([b"\x01m\x07map_new\x00\x00"] * (size // 12))))


def many_customs(size):
    """Custom sections without names."""
    return sections(*[(0, b"\x00")] * (size // 3))


def many_globals(size):
    return sections((6, vec([I64 + b"\x00\x42\x00\x0b"] * (size // 5))))


def many_elements(size):
    """Segments of a table with 1,000 indices of one function each."""
    segment = b"\x00\x41\x00\x0b" + vec([b"\x00"] * 1_000)
    return sections(
        (1, vec([NOTHING])), (3, vec([b"\x00"])), (4, vec([b"\x70\x00" + leb(1_000)])),
        (9, vec([segment] * (size // 1_000))), (10, vec([sized(b"\x00\x0b")])),
    )  # fmt: skip


def many_segments(size):
    """Segments of a memory without bytes."""
    return sections((5, vec([b"\x00\x01"])), (11, vec([b"\x00\x41\x00\x0b\x00"] * (size // 5))))


def uploading(make):
    """An act that uploads a module of a size. From the second upload on the module is there, and is read again."""
    return turning(calls("upload_wasm", "0"), one(lambda size: blob(make(size))), lambda size: (1, 2))


def blob(code):
    """Bytes as a value."""
    return words(13, len(code)) + code + bytes(-len(code) % 4)


MODULES = [
    (f"`upload_wasm`, {make.__name__.replace('_', ' ')}, n bytes", BYTES, uploading(make))
    for make in (
        many_targets, many_blocks, many_drops, many_unreachable, many_locals, many_indirect_calls, many_types, many_functions,
        many_imports, many_exports, many_customs, many_globals, many_elements, many_segments,
    )
]  # fmt: skip


# ---- WebAssembly, and what enters and leaves


def inner(turn):
    """A turn that calls the function behind `f`."""
    turn.push(call(1)).drop()


def branching(size):
    """An act that is a branch by a table of so many labels."""
    turn = Turn().push(b"\x02\x40\x41\x00\x0e" + vec([b"\x00"] * size) + b"\x00\x0b")
    return Case(turn, 1_000), Case(turn, 2_000), 1_000


def leaving(size):
    """An act that enters so many blocks, and leaves them by one branch."""
    turn = Turn().push(b"\x02\x40" * size + b"\x0c" + leb(size - 1) + b"\x0b" * size)
    return Case(turn, 20), Case(turn, 40), 20


def entering(size):
    """An act that is an argument of the transaction's call."""
    return Case(Turn(1), 0, [VOID]), Case(Turn(1), 0, [voids(size)]), 1


def returning(size):
    """An act that is the value which the transaction's call returns."""
    few, many = (Case(Turn(1), 0, [voids(size)], end=end) for end in (VOID_WORD, local_get(1)))
    return few, many, 1


RUNS = [
    ("a call within the module, n locals", (40, 400, 4_000), turning(
        inner, turns=lambda n: (100, 200), others=lambda n: [(0, body(VOID_WORD, locals_=n))])),
    ("`br_table`, n labels", MEDIUM, branching),
    ("a branch out of n blocks", (5, 50, 500), leaving),
    ("an argument of n of the transaction", MEDIUM, entering),
    ("a result of n of the transaction", MEDIUM, returning),
]  # fmt: skip

ACTS = VALUES + LEDGER + DEMANDS + CALLS + MODULES + RUNS
