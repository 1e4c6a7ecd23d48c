#!/usr/bin/env python3
"""Writes crates/conformance/data/host_imports.txt: each function of the host interface, modules that import it, and calls.

The lists below stand apart from the code: they were written by hand, and not made from crates/host_interface. In INTERFACE
a letter stands for a kind of argument or result (KINDS). CALLS has a call of each function. No other function that takes
as many words answers that call in the same way, so a name that is bound to another function fails.

usage: tools/import_cases.py FILE (crates/conformance/data/host_imports.txt)
       tools/import_cases.py --swapped FILE: writes to FILE, in place of the calls, each call with the name of each other
       function that takes as many words. Judged by crates/conformance, all of these have to fail.
"""

import hashlib
import sys

KINDS = {
    "V": "Value", "E": "Error", "N": "U32", "u": "U64", "i": "I64", "W": "U128", "J": "I128", "T": "Timepoint",
    "D": "Duration", "B": "Bytes", "S": "String", "Y": "Symbol", "L": "Vec", "M": "Map", "A": "Address",
    "X": "MuxedAddress", "w": "Unsigned", "s": "Signed", "o": "Void", "t": "Bool", "n": "OptionalU32", "!": "Never",
}

# NAME(ARGUMENTS)RESULT of each function, by module.
INTERFACE = {
    "x": """obj_cmp(VV)s contract_event(LV)o get_ledger_version()N get_ledger_sequence()N get_ledger_timestamp()u
        get_ledger_network_id()B get_current_contract_address()A get_max_live_until_ledger()N fail_with_error(E)!""",
    "i": """obj_from_u64(w)u obj_to_u64(u)w obj_from_i64(s)i obj_to_i64(i)s obj_from_u128_pieces(ww)W obj_to_u128_hi64(W)w
        obj_to_u128_lo64(W)w obj_from_i128_pieces(sw)J obj_to_i128_hi64(J)s obj_to_i128_lo64(J)w
        timepoint_obj_from_u64(w)T timepoint_obj_to_u64(T)w duration_obj_from_u64(w)D duration_obj_to_u64(D)w""",
    "m": """map_new()M map_put(MVV)M map_get(MV)V map_del(MV)M map_len(M)N map_has(MV)t map_key_by_pos(MN)V
        map_val_by_pos(MN)V map_keys(M)L map_values(M)L""",
    "v": """vec_new()L vec_put(LNV)L vec_get(LN)V vec_del(LN)L vec_len(L)N vec_push_front(LV)L vec_pop_front(L)L
        vec_push_back(LV)L vec_pop_back(L)L vec_front(L)V vec_back(L)V vec_insert(LNV)L vec_append(LL)L vec_slice(LNN)L
        vec_first_index_of(LV)n vec_last_index_of(LV)n vec_new_from_linear_memory(NN)L vec_unpack_to_linear_memory(LNN)o""",
    "b": """serialize_to_bytes(V)B deserialize_from_bytes(B)V bytes_new()B bytes_put(BNN)B bytes_get(BN)N bytes_del(BN)B
        bytes_len(B)N bytes_push(BN)B bytes_pop(B)B bytes_front(B)N bytes_back(B)N bytes_insert(BNN)B bytes_append(BB)B
        bytes_slice(BNN)B bytes_copy_to_linear_memory(BNNN)o string_copy_to_linear_memory(SNNN)o
        symbol_copy_to_linear_memory(YNNN)o bytes_copy_from_linear_memory(BNNN)B bytes_new_from_linear_memory(NN)B
        string_new_from_linear_memory(NN)S symbol_new_from_linear_memory(NN)Y string_len(S)N symbol_len(Y)N
        string_to_bytes(S)B bytes_to_string(B)S""",
    "c": "compute_hash_sha256(B)B",
    "l": """put_contract_data(VVw)o has_contract_data(Vw)t get_contract_data(Vw)V del_contract_data(Vw)o
        extend_contract_data_ttl(VwNN)o extend_current_contract_instance_and_code_ttl(NN)o upload_wasm(B)B
        create_contract(ABB)A create_contract_with_constructor(ABBL)A update_current_contract_wasm(B)o
        get_contract_id(AB)A""",
    "d": "call(AYL)V try_call(AYL)V",
    "a": """require_auth(A)o require_auth_for_args(AL)o get_address_from_muxed_address(X)A
        get_id_from_muxed_address(X)u""",
}


def functions():
    """Each function of the interface: letter, name, kinds of the arguments, kind of the result."""
    for letter, listed in INTERFACE.items():
        for signature in listed.split():
            name, rest = signature.split("(")
            arguments, result = rest.split(")")
            yield letter, name, [KINDS[kind] for kind in arguments], KINDS[result]


ONE_I64, ONE_I32, NONE = b"\x01\x7e", b"\x01\x7f", b"\x00"


def module(letter, name, arity, results=ONE_I64):
    """A module that imports the function with so many parameters. Each part has fewer than 128 bytes."""
    func_type = b"\x01\x60" + bytes([arity]) + b"\x7e" * arity + results
    imported = b"\x01\x01" + letter.encode() + bytes([len(name)]) + name.encode() + b"\0\0"
    sections = [bytes([1, len(func_type)]) + func_type, bytes([2, len(imported)]) + imported]
    return (b"\0asm\x01\0\0\0" + b"".join(sections)).hex()


# ---- calls

BYTES, STRING, SYMBOL = 13, 14, 15


def hex32(number):
    return f"{number:08x}"


def u32(number):
    """The XDR of a U32."""
    return hex32(3) + hex32(number)


def vec(*numbers):
    """The XDR of a vec of U32s."""
    return hex32(16) + hex32(1) + hex32(len(numbers)) + "".join(map(u32, numbers))


def members(**values):
    """The XDR of a map whose keys and values are U32s. The key 1 is written `_1`."""
    pairs = "".join(u32(int(key[1:])) + u32(value) for key, value in values.items())
    return hex32(17) + hex32(1) + hex32(len(values)) + pairs


def opaque(kind, data):
    """The XDR of BYTES, of a STRING or of a SYMBOL."""
    return hex32(kind) + hex32(len(data)) + data.hex() + "00" * (-len(data) % 4)


ID, SALT, NETWORK, KEY, CODE = b"\5" * 32, b"\6" * 32, b"\7" * 32, b"\x08" * 32, b"\1" * 32
ACCOUNT = "0000000000000000" + KEY.hex()
# The values that the frame has shown, in this order: a name, the tag of its object, and its XDR.
SHOWN = [
    ("M", 76, members(_1=7, _2=8, _3=9)),
    ("L", 75, vec(2, 4, 1, 1, 8)),
    ("B", 72, opaque(BYTES, b"\x0a\x0b\x0c\x0d")),
    ("S", 73, opaque(STRING, b"string")),
    ("Y", 74, opaque(SYMBOL, b"more_than_9")),
    ("W", 68, "000000090000000000000005" + "0000000000000006"),
    ("J", 69, "0000000afffffffffffffffb" + "0000000000000006"),
    ("T", 66, "000000070200000000000000"),
    ("D", 67, "000000080400000000000000"),
    ("X", 78, "00000012" + "00000002" + "0000000000000009" + KEY.hex()),
    ("A", 77, "00000012" + ACCOUNT),
    ("H", 72, opaque(BYTES, SALT)),
    ("P", 72, opaque(BYTES, bytes.fromhex(u32(263)))),
]
# The words of two U32s, zeros, and from 32 on a text.
MEMORY = b"\4\0\0\0\3\0\0\0" + b"\4\0\0\0\5\0\0\0" + bytes(16) + b"abcdefgh"
PREIMAGE = hex32(8) + NETWORK.hex() + "00000000" + ACCOUNT + SALT.hex()
EMITTED = "00000000" + "00000001" + ID.hex() + "00000001" + "00000000"


def number(value):
    """The word of a U32."""
    return value << 32 | 4


def new(tag, value):
    """The word of the next object, and its value."""
    return f"{len(SHOWN) << 33 | tag:x} shows {value}"


def memory_with(place, data):
    """Void, and the memory with other bytes from this place on."""
    return f"2 memory {(MEMORY[:place] + data + MEMORY[place + len(data):]).hex()}"


def copied(storage):
    """The line of the frame's copy of the instance."""
    return f"copy {CODE.hex()} {storage}"


# The symbol `abc`: its characters have the numbers 38, 39 and 40.
ABC = (38 << 12 | 39 << 6 | 40) << 8 | 14

# NAME: words of the call, and the outcome up to the sums. `#7` is the word of the U32 7, a letter that of a value of SHOWN,
# and other words are in base 16. A list has the lines of what is left behind the outcome.
CALLS = {
    "obj_cmp": ("#1 #2", "ffffffffffffffff"),
    "contract_event": ("L #1", ["2", f"event {EMITTED}{vec(2, 4, 1, 1, 8)[16:]}{u32(1)}"]),
    "get_ledger_version": ("", f"{number(23):x}"),
    "get_ledger_sequence": ("", f"{number(101):x}"),
    "get_ledger_timestamp": ("", f"{1234 << 8 | 6:x}"),
    "get_ledger_network_id": ("", new(72, opaque(BYTES, NETWORK))),
    "get_current_contract_address": ("", new(77, "0000001200000001" + ID.hex())),
    "get_max_live_until_ledger": ("", f"{number(101 + 3110400 - 1):x}"),
    "fail_with_error": ("700000003", "fails Contract(7)"),
    "obj_from_u64": ("5", new(64, "000000050000000000000005")),
    "obj_to_u64": ("706", "7"),
    "obj_from_i64": ("5", new(65, "000000060000000000000005")),
    "obj_to_i64": ("707", "7"),
    "obj_from_u128_pieces": ("5 6", new(68, "0000000900000000000000050000000000000006")),
    "obj_to_u128_hi64": ("W", "5"),
    "obj_to_u128_lo64": ("W", "6"),
    "obj_from_i128_pieces": ("fffffffffffffffb 6", new(69, "0000000afffffffffffffffb0000000000000006")),
    "obj_to_i128_hi64": ("J", "fffffffffffffffb"),
    "obj_to_i128_lo64": ("J", "6"),
    "timepoint_obj_from_u64": ("5", new(66, "000000070000000000000005")),
    "timepoint_obj_to_u64": ("T", "200000000000000"),
    "duration_obj_from_u64": ("5", new(67, "000000080000000000000005")),
    "duration_obj_to_u64": ("D", "400000000000000"),
    "map_new": ("", new(76, members())),
    "map_put": ("M #2 #1", new(76, members(_1=7, _2=1, _3=9))),
    "map_get": ("M #2", "#8"),
    "map_del": ("M #2", new(76, members(_1=7, _3=9))),
    "map_len": ("M", "#3"),
    "map_has": ("M #4", "0"),
    "map_key_by_pos": ("M #1", "#2"),
    "map_val_by_pos": ("M #1", "#8"),
    "map_keys": ("M", new(75, vec(1, 2, 3))),
    "map_values": ("M", new(75, vec(7, 8, 9))),
    "vec_new": ("", new(75, vec())),
    "vec_put": ("L #1 #9", new(75, vec(2, 9, 1, 1, 8))),
    "vec_get": ("L #1", "#4"),
    "vec_del": ("L #1", new(75, vec(2, 1, 1, 8))),
    "vec_len": ("L", "#5"),
    "vec_push_front": ("L #9", new(75, vec(9, 2, 4, 1, 1, 8))),
    "vec_pop_front": ("L", new(75, vec(4, 1, 1, 8))),
    "vec_push_back": ("L #9", new(75, vec(2, 4, 1, 1, 8, 9))),
    "vec_pop_back": ("L", new(75, vec(2, 4, 1, 1))),
    "vec_front": ("L", "#2"),
    "vec_back": ("L", "#8"),
    "vec_insert": ("L #1 #9", new(75, vec(2, 9, 4, 1, 1, 8))),
    "vec_append": ("L L", new(75, vec(2, 4, 1, 1, 8, 2, 4, 1, 1, 8))),
    "vec_slice": ("L #1 #3", new(75, vec(4, 1))),
    "vec_first_index_of": ("L #1", "#2"),
    "vec_last_index_of": ("L #1", "#3"),
    "vec_new_from_linear_memory": ("#0 #2", new(75, vec(3, 5))),
    "vec_unpack_to_linear_memory": (
        "L #0 #5", memory_with(0, b"".join(number(n).to_bytes(8, "little") for n in (2, 4, 1, 1, 8))),
    ),
    "serialize_to_bytes": ("#7", new(72, opaque(BYTES, bytes.fromhex(u32(7))))),
    "deserialize_from_bytes": ("P", "#263"),
    "bytes_new": ("", new(72, opaque(BYTES, b""))),
    "bytes_put": ("B #1 #9", new(72, opaque(BYTES, b"\x0a\x09\x0c\x0d"))),
    "bytes_get": ("B #1", "#11"),
    "bytes_del": ("B #1", new(72, opaque(BYTES, b"\x0a\x0c\x0d"))),
    "bytes_len": ("B", "#4"),
    "bytes_push": ("B #9", new(72, opaque(BYTES, b"\x0a\x0b\x0c\x0d\x09"))),
    "bytes_pop": ("B", new(72, opaque(BYTES, b"\x0a\x0b\x0c"))),
    "bytes_front": ("B", "#10"),
    "bytes_back": ("B", "#13"),
    "bytes_insert": ("B #1 #9", new(72, opaque(BYTES, b"\x0a\x09\x0b\x0c\x0d"))),
    "bytes_append": ("B B", new(72, opaque(BYTES, b"\x0a\x0b\x0c\x0d\x0a\x0b\x0c\x0d"))),
    "bytes_slice": ("B #1 #3", new(72, opaque(BYTES, b"\x0b\x0c"))),
    "bytes_copy_to_linear_memory": ("B #1 #2 #3", memory_with(2, b"\x0b\x0c\x0d")),
    "string_copy_to_linear_memory": ("S #1 #2 #3", memory_with(2, b"tri")),
    "symbol_copy_to_linear_memory": ("Y #1 #2 #3", memory_with(2, b"ore")),
    "bytes_copy_from_linear_memory": ("B #1 #32 #5", new(72, opaque(BYTES, b"\x0aabcde"))),
    "bytes_new_from_linear_memory": ("#32 #3", new(72, opaque(BYTES, b"abc"))),
    "string_new_from_linear_memory": ("#32 #3", new(73, opaque(STRING, b"abc"))),
    "symbol_new_from_linear_memory": ("#32 #3", f"{ABC:x}"),
    "string_len": ("S", "#6"),
    "symbol_len": ("Y", "#11"),
    "string_to_bytes": ("S", new(72, opaque(BYTES, b"string"))),
    "bytes_to_string": ("B", new(73, opaque(STRING, b"\x0a\x0b\x0c\x0d"))),
    "compute_hash_sha256": ("B", new(72, opaque(BYTES, hashlib.sha256(b"\x0a\x0b\x0c\x0d").digest()))),
    # The storage of the instance has the members of M.
    "put_contract_data": ("#2 #1 2", ["2", copied(members(_1=7, _2=1, _3=9))]),
    "has_contract_data": ("#4 2", "0"),
    "get_contract_data": ("#2 2", "#8"),
    "del_contract_data": ("#2 2", ["2", copied(members(_1=7, _3=9))]),
    "extend_contract_data_ttl": ("#2 2 #1 #2", "fails Storage(InvalidAction)"),
    # The transaction declares no keys.
    "extend_current_contract_instance_and_code_ttl": ("#1 #2", "undeclared instance"),
    "update_current_contract_wasm": ("H", "undeclared code"),
    "get_contract_id": ("A H", new(77, "0000001200000001" + hashlib.sha256(bytes.fromhex(PREIMAGE)).hexdigest())),
    "get_address_from_muxed_address": ("X", new(77, "00000012" + ACCOUNT)),
    "get_id_from_muxed_address": ("X", "906"),
}
# Only a whole transaction calls these: the tables calls*.txt of crates/command_cases have their cases.
IN_TRANSACTIONS = """upload_wasm create_contract create_contract_with_constructor call try_call require_auth
    require_auth_for_args""".split()


def spelled(word):
    """A word of CALLS in base 16."""
    places = {name: place << 33 | tag for place, (name, tag, _) in enumerate(SHOWN)}
    if word.startswith("#"):
        return f"{number(int(word[1:])):x}"
    return f"{places[word]:x}" if word in places else word


def call_row(letter, name, words, outcome):
    """A call and its outcome. No charge of a host function costs anything."""
    line = " ".join(["host", letter, name, *map(spelled, words.split())])
    if isinstance(outcome, str):
        return f"{line} => {spelled(outcome)} costs 0 0\n"
    return "".join([f"{line}\n  {outcome[0]} costs 0 0\n", *(f"  {left}\n" for left in outcome[1:])])


def prepared():
    """What the calls find: terms by which only instructions cost, the ledger before ledger 101, no declared keys."""
    settings = "00000010" + "00001000" + hex32(3110400) + "0000000002800000" + hex32(1) + "00" * 172
    lines = [
        f"settings {settings}",
        f"previous 00000002{NETWORK.hex()}0000001700000064{1234:016x}{settings}" + "00000000",
        f"contract {ID.hex()} {CODE.hex()}",
        f"copy {CODE.hex()} {SHOWN[0][2]}",
        " ".join(["frame", *(value for _, _, value in SHOWN)]),
        f"memory {MEMORY.hex()}",
    ]
    return "".join(f"{line}\n" for line in lines)


def swapped(listed):
    """Each call with the name of each other function of CALLS that takes as many words."""
    for letter, name, arguments, _ in listed:
        for other_letter, other, others, _ in listed:
            if name in CALLS and other in CALLS and name != other and len(arguments) == len(others):
                yield call_row(other_letter, other, *CALLS[name])


HEAD = """# Each function of the host interface: its module and name, the kinds of its arguments and result, modules that import
# it, and a call of it. tools/import_cases.py wrote this table from lists of its own, and not from the code.

## the functions
"""

CALLS_HEAD = """
## a call of the function, which no other function of as many words answers in the same way
# Their charges cost nothing. Only whole transactions call the functions that are missing here: calls*.txt of crates/command_cases.
"""


def write_links(table, listed):
    table.write("\n## a module that imports the function with its type\n")
    for letter, name, arguments, _ in listed:
        table.write(f"link {module(letter, name, len(arguments))} => linked # {letter} {name}\n")
    table.write("\n## with one parameter fewer, or with one more if it has none\n")
    for letter, name, arguments, _ in listed:
        other = len(arguments) - 1 if arguments else 1
        table.write(f"link {module(letter, name, other)} => unlinked import 0 # {letter} {name}\n")
    for title, results in (("an i32 as its result", ONE_I32), ("no result", NONE)):
        table.write(f"\n## with {title}\n")
        for letter, name, arguments, _ in listed:
            table.write(f"link {module(letter, name, len(arguments), results)} => unlinked import 0 # {letter} {name}\n")


def main():
    listed = list(functions())
    assert sorted([*CALLS, *IN_TRANSACTIONS]) == sorted(name for _, name, _, _ in listed)
    only_swapped, words = sys.argv[1:2] == ["--swapped"], [word for word in sys.argv[1:] if word != "--swapped"]
    if len(words) != 1 or words[0].startswith("-"):
        sys.exit(__doc__)
    if only_swapped:
        with open(words[0], "w", encoding="utf-8") as table:
            table.write(prepared() + "".join(swapped(listed)))
        return
    with open(words[0], "w", encoding="utf-8") as table:
        table.write(HEAD)
        table.write(f"interface => {len(listed)} functions\n")
        for letter, name, arguments, result in listed:
            table.write(f"import {letter} {name} => {' '.join(arguments + ['->', result])}\n")
        table.write("import x put_contract_data => none # its module is l\n")
        table.write("import l _ => none\n")
        table.write("import l PUT_CONTRACT_DATA => none\n")
        table.write("import ll put_contract_data => none\n")
        write_links(table, listed)
        table.write(CALLS_HEAD + prepared())
        for letter, name, _, _ in listed:
            if name in CALLS:
                table.write(call_row(letter, name, *CALLS[name]))


if __name__ == "__main__":
    main()
