"""Builds contracts whose function does a turn many times, with the ledgers and the envelopes for a call of it.

A contract's function takes the number of turns, as a U32, and then its arguments. Contracts are numbered.
"""

import hashlib

from host_calls import MEMORY_LIMIT, MOST, PERSISTENT, call, constant, local_get, local_set, record
from ledgers import NETWORK, header, words
from modules import I64, leb, sized, vec

ZEROS = bytes(32)
CALLER, CALLEE = 5, 6  # the contracts that a transaction calls, and that this one calls
# The functions of the host: the module's letter and the number of parameters. The words of a turn name functions alone.
HOST = {
    "obj_cmp": (b"x", 2), "contract_event": (b"x", 2), "get_current_contract_address": (b"x", 0),
    "map_put": (b"m", 3), "map_get": (b"m", 2), "map_has": (b"m", 2), "map_del": (b"m", 2), "map_values": (b"m", 1),
    "vec_new": (b"v", 0), "vec_get": (b"v", 2), "vec_len": (b"v", 1), "vec_front": (b"v", 1), "vec_pop_front": (b"v", 1),
    "vec_push_back": (b"v", 2), "vec_append": (b"v", 2), "vec_slice": (b"v", 3), "vec_first_index_of": (b"v", 2),
    "vec_new_from_linear_memory": (b"v", 2), "vec_unpack_to_linear_memory": (b"v", 3),
    "serialize_to_bytes": (b"b", 1), "deserialize_from_bytes": (b"b", 1), "bytes_push": (b"b", 2), "bytes_append": (b"b", 2),
    "bytes_get": (b"b", 2), "bytes_copy_from_linear_memory": (b"b", 4), "bytes_copy_to_linear_memory": (b"b", 4),
    "bytes_to_string": (b"b", 1), "compute_hash_sha256": (b"c", 1),
    "put_contract_data": (b"l", 3), "has_contract_data": (b"l", 2), "get_contract_data": (b"l", 2),
    "del_contract_data": (b"l", 2), "extend_contract_data_ttl": (b"l", 4),
    "extend_current_contract_instance_and_code_ttl": (b"l", 2), "upload_wasm": (b"l", 1), "create_contract": (b"l", 3),
    "create_contract_with_constructor": (b"l", 4), "update_current_contract_wasm": (b"l", 1),
    "call": (b"d", 3), "try_call": (b"d", 3), "require_auth": (b"a", 1), "require_auth_for_args": (b"a", 2),
}  # fmt: skip
VOID_WORD = 2
DROP, UNREACHABLE = b"\x1a", b"\x00"


# ---- values


VOID = words(1)


def value_u32(number):
    return words(3, number)


def data(size):
    """Bytes of this size."""
    return words(13, size) + bytes(size + -size % 4)


def vector(items):
    return words(16, 1, len(items)) + b"".join(items)


def voids(count):
    """A vec of so many VOIDs: of all values it has the most items for its bytes, which are 4 an item."""
    return words(16, 1, count) + VOID * count


def mapping(pairs):
    return words(17, 1, len(pairs)) + b"".join(key + value for key, value in pairs)


def contract(number):
    """The address of a contract."""
    return words(1) + number.to_bytes(32, "big")


def address(number):
    """The address of a contract as a value."""
    return words(18) + contract(number)


ACCOUNT = words(18, 0, 0) + ZEROS  # the source of the transaction, as a value


# ---- WebAssembly


def symbol_word(text):
    """A symbol of at most nine characters as a word."""
    letters = "_0123456789ABCDEFGHIJKLMNOPQRSTUVWXYZabcdefghijklmnopqrstuvwxyz"
    body = 0
    for letter in text:
        body = body << 6 | letters.index(letter) + 1
    return body << 8 | 14


class Turn:
    """The instructions of a turn of a function with so many arguments, and those before the first turn. The functions of the
    host that they call become imports."""

    def __init__(self, arguments=0):
        self.imports, self.first, self.code, self.arguments = [], b"", b"", arguments

    def push(self, operand):
        """Pushes an operand: a word that is constant, or instructions."""
        self.code += constant(operand) if isinstance(operand, int) else operand
        return self

    def host(self, name, *operands):
        """Calls a function of the host."""
        for operand in operands:
            self.push(operand)
        if name not in self.imports:
            self.imports.append(name)
        return self.push(call(self.imports.index(name)))

    def begins(self):
        """Moves the instructions so far before the first turn."""
        self.first, self.code = self.first + self.code, b""
        return self

    def drop(self):
        return self.push(DROP)

    def argument(self, index):
        return local_get(1 + index)

    def count(self):
        """The instructions that push the number of turns that are left, as a U32."""
        return local_get(0) + constant(32) + b"\x86" + constant(4) + b"\x84"


def looped(turn, end=VOID_WORD):
    """The body of a function that does a turn as often as its first argument says, and then ends with a result."""
    down = local_get(0) + constant(1) + b"\x7d" + local_set(0)
    loop = b"\x02\x40\x03\x40" + local_get(0) + b"\x50\x0d\x01" + turn.code + down + b"\x0c\x00\x0b\x0b"
    begin = local_get(0) + constant(32) + b"\x88" + local_set(0)
    return body(begin, turn.first, loop, end)


def body(*operands, locals_=0):
    """The body of a function that pushes its result last."""
    declared = vec([leb(locals_) + I64]) if locals_ else vec([])
    code = b"".join(constant(it) if isinstance(it, int) else it for it in operands)
    return sized(declared + code + b"\x0b")


def module(exports, imports=(), others=(), pages=0, padding=0):
    """A module. Exports are names with the number of their parameters and their bodies, and other functions have no name."""
    arities = max([arity for _, arity, _ in exports] + [arity for arity, _ in others] + [4])
    types = vec([b"\x60" + vec([I64] * arity) + vec([I64]) for arity in range(arities + 1)])
    named = vec([sized(HOST[name][0]) + sized(name.encode()) + b"\x00" + leb(HOST[name][1]) for name in imports])
    functions = [(arity, code) for _, arity, code in exports] + list(others)
    sections = [(1, types), (2, named), (3, vec([leb(arity) for arity, _ in functions]))]
    if pages:
        sections.append((5, vec([b"\x00" + leb(pages)])))
    names = [sized(name.encode()) + b"\x00" + leb(len(imports) + index) for index, (name, _, _) in enumerate(exports)]
    sections.append((7, vec(names)))
    sections.append((10, vec([code for _, code in functions])))
    if padding:
        sections.append((0, sized(b"p") + bytes(padding)))
    return b"\x00asm\x01\x00\x00\x00" + b"".join(leb(number) + sized(part) for number, part in sections)


def looping(turn, name="f", end=VOID_WORD, **rest):
    """The module of a contract with one function, which does the turn."""
    return module([(name, 1 + turn.arguments, looped(turn, end))], turn.imports, **rest)


# ---- ledgers and envelopes


def code_key(code):
    return words(7) + hashlib.sha256(code).digest()


def instance_key(number):
    return words(6) + contract(number) + words(20, 1)


def data_record(number, key, value):
    """The record of a persistent entry of a contract."""
    name = words(6) + contract(number) + key + words(PERSISTENT)
    return name, record(name, words(6, 0) + name[4:] + value)


def contract_records(number, code, members=()):
    """The records of a contract's instance, with pairs of keys and values in its storage, and of its code."""
    storage = mapping(members)[4:] if members else words(0)
    key, name = code_key(code), instance_key(number)
    return [
        (key, record(key, words(7, 0) + key[4:] + words(len(code)) + code + bytes(-len(code) % 4))),
        (name, record(name, words(6, 0) + name[4:] + words(19, 0) + key[4:] + storage)),
    ]


def ledger(records):
    """The file of a ledger of these records, each once."""
    inside = dict(records)
    return header(MEMORY_LIMIT) + words(len(inside)) + b"".join(inside[key] for key in sorted(inside))


def invocation(number, function, args, children=()):
    """An invocation in an authorisation entry: a call, and the invocations below it."""
    name = function.encode()
    called = words(0) + contract(number) + words(len(name)) + name + bytes(-len(name) % 4) + words(len(args)) + b"".join(args)
    return called + words(len(children)) + b"".join(children)


def signed(nonce, root):
    """An authorisation entry of the account, and the pair of the verdicts' file that says that its signature is good."""
    credentials = words(1, 0, 0) + ZEROS + nonce.to_bytes(8, "big") + words(500) + VOID
    payload = words(9) + NETWORK + nonce.to_bytes(8, "big") + words(500) + root
    return credentials + root, ZEROS + hashlib.sha256(payload).digest()


def operation(number, function, args, entries=()):
    """The body of an operation that calls a contract."""
    name = function.encode()
    called = contract(number) + words(len(name)) + name + bytes(-len(name) % 4) + words(len(args)) + b"".join(args)
    return words(24, 0) + called + words(len(entries)) + b"".join(entries)


def transaction(called, footprint):
    """A transaction with one operation, which may use all resources."""
    declared = words(1, 0) + footprint + words(MOST, MOST, MOST, 0, 0)
    return words(0) + ZEROS + words(100, 0, 1, 0, 0, 1, 0) + called + declared


def envelope(called):
    """An envelope for a simulation, whose footprint is empty."""
    return words(2) + transaction(called, words(0, 0)) + words(0)


def tx_set(called, footprint):
    """A set of one transaction."""
    return words(1) + ZEROS + words(1, 1, 0, 1, 1, 1, 2) + transaction(called, footprint) + words(0)




class Case:
    """A call of the caller's function `f` with so many turns, and all that is needed for it."""

    def __init__(self, turn, turns, args=(), members=(), records=(), entries=(), verdicts=(), **code):
        self.called = operation(CALLER, "f", [value_u32(turns), *args], entries)
        self.ledger = ledger([*contract_records(CALLER, looping(turn, **code), members), *records])
        self.verdicts = words(len(verdicts)) + b"".join(sorted(verdicts))
