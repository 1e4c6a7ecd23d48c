#!/usr/bin/env python3
"""Makes examples/include/soroban_host.h and soroban_host.rs, which declare the host interface for contracts in C and in Rust.

python3 tools/host_header.py            writes both files anew
python3 tools/host_header.py --check    says whether the files are what this makes; the status is 1 if one is not

The declarations are made from the rows of crates/host_interface/src/rows.rt, in their order and under their headings.
"""
import pathlib
import re
import string
import sys

TOP = pathlib.Path(__file__).resolve().parent.parent
ROWS = TOP / "crates" / "host_interface" / "src" / "rows.rt"
INCLUDE = TOP / "examples" / "include"
TABLE = re.compile(r"HOST_ROWS: \[TableRow; (\d+)\] = \[\n(.*?)\n\];", re.DOTALL)
ROW = re.compile(r'row!\("(\w)", "(\w+)", \w+\(([\w, ]*)\) -> (\w+)\),')
WIDTH = 130

# The type of each kind of argument and result, in both languages, and a remark on its words.
TYPES = {
    "Value": ("Val", "a value of any type"),
    "Void": ("VoidVal", ""),
    "Bool": ("BoolVal", ""),
    "Error": ("ErrorVal", ""),
    "U32": ("U32Val", ""),
    "U64": ("U64Val", "the small form or an object; the same holds for all numbers below, and for symbols"),
    "I64": ("I64Val", ""),
    "U128": ("U128Val", ""),
    "I128": ("I128Val", ""),
    "Timepoint": ("TimepointVal", ""),
    "Duration": ("DurationVal", ""),
    "Bytes": ("BytesVal", ""),
    "String": ("StringVal", ""),
    "Symbol": ("SymbolVal", ""),
    "Vec": ("VecVal", ""),
    "Map": ("MapVal", ""),
    "Address": ("AddressVal", "the address of an account or a contract"),
    "MuxedAddress": ("MuxedAddressVal", "the address of a muxed account"),
    "OptionalU32": ("OptionalU32Val", "a U32, or Void if there is none"),
}
# Words of these kinds are plain numbers.
NUMBERS = {"Unsigned": "uint64_t", "Signed": "int64_t"}
RUST_NUMBERS = {"Unsigned": "u64", "Signed": "i64"}

C_HEAD = """\
// The host interface in C: the functions of the host that a contract can import.
//
// tools/host_header.py made this file from crates/host_interface/src/rows.rt. Do not edit it.
//
// A value is a word of 64 bits. For C all types below are the same: their names say which values a function takes and
// returns. The host checks the type of each argument. uint64_t and int64_t stand for plain numbers.
#ifndef SOROBAN_HOST_H
#define SOROBAN_HOST_H

#include <stdint.h>

"""
C_MACRO = """
// The module and the name by which a contract imports the function that is declared behind it.
#define HOST(module, name) __attribute__((import_module(module), import_name(name)))
"""
C_TAIL = """
#endif
"""

RUST_HEAD = """\
//! The host interface in Rust: the functions of the host that a contract can import.
//!
//! tools/host_header.py made this file from crates/host_interface/src/rows.rt. Do not edit it.
//!
//! A value is a word of 64 bits. For Rust all types below are the same: their names say which values a function takes and
//! returns. The host checks the type of each argument. u64 and i64 stand for plain numbers. A function is unsafe if the host
//! writes to the linear memory, at an address that it is given.

"""
RUST_MACRO = """
/// Declares a function of the host, imported from the module with this letter.
macro_rules! host {
    ($letter:literal unsafe fn $name:ident($($argument:ident: $kind:ty),*) -> $result:ty) => {
        #[inline(always)]
        pub unsafe fn $name($($argument: $kind),*) -> $result {
            #[link(wasm_import_module = $letter)]
            extern "C" {
                fn $name($($argument: $kind),*) -> $result;
            }
            $name($($argument),*)
        }
    };
    // For WebAssembly, an import without a return has a result like all others.
    ($letter:literal fn $name:ident($argument:ident: $kind:ty) -> !) => {
        #[inline(always)]
        pub fn $name($argument: $kind) -> ! {
            #[link(wasm_import_module = $letter)]
            extern "C" {
                fn $name($argument: $kind) -> Val;
            }
            unsafe { $name($argument) };
            core::arch::wasm32::unreachable()
        }
    };
    ($letter:literal fn $name:ident($($argument:ident: $kind:ty),*) -> $result:ty) => {
        #[inline(always)]
        pub fn $name($($argument: $kind),*) -> $result {
            #[link(wasm_import_module = $letter)]
            extern "C" {
                fn $name($($argument: $kind),*) -> $result;
            }
            unsafe { $name($($argument),*) }
        }
    };
}
"""


def read_table(text):
    """Returns the lines of the table: headings as text, and rows as (letter, name, arguments, result)."""
    count, body = TABLE.search(text).groups()
    lines = []
    for line in body.split("\n"):
        line = line.strip()
        if line.startswith("// "):
            lines.append(line[3:])
            continue
        letter, name, arguments, result = ROW.fullmatch(line).groups()
        lines.append((letter, name, [it for it in arguments.split(", ") if it], result))
    if sum(isinstance(line, tuple) for line in lines) != int(count):
        sys.exit(f"{ROWS} has another number of rows than it says")
    return lines


def fitting(line, name):
    """Returns the line that declares the function of this name. It has to fit the width of a line."""
    if len(line) > WIDTH:
        sys.exit(f"the declaration of {name} is wider than {WIDTH} columns")
    return line + "\n"


def c_type(kind):
    return NUMBERS.get(kind) or TYPES[kind][0]


def c_declaration(letter, name, arguments, result):
    """Returns the line that declares a function in C."""
    # Each import has a result for WebAssembly, also the one that never returns.
    kind = "_Noreturn Val" if result == "Never" else c_type(result)
    parameters = ", ".join(map(c_type, arguments)) or "void"
    return fitting(f'HOST("{letter}", "{name}") {kind} {name}({parameters});', name)


def c_header(table):
    text = C_HEAD
    for name, remark in TYPES.values():
        text += f"typedef {'uint64_t' if name == 'Val' else 'Val'} {name};" + (f" // {remark}" if remark else "") + "\n"
    text += C_MACRO
    for line in table:
        text += f"\n// {line}\n" if isinstance(line, str) else c_declaration(*line)
    return text + C_TAIL


def rust_type(kind):
    return RUST_NUMBERS.get(kind) or TYPES[kind][0]


def rust_declaration(letter, name, arguments, result):
    """Returns the line that declares a function in Rust. The parameters have the letters a, b, .. as names."""
    safety = "unsafe fn" if name.endswith("_to_linear_memory") else "fn"
    kind = "!" if result == "Never" else rust_type(result)
    parameters = ", ".join(f"{letter}: {rust_type(it)}" for letter, it in zip(string.ascii_lowercase, arguments))
    return fitting(f'host!("{letter}" {safety} {name}({parameters}) -> {kind});', name)


def rust_header(table):
    text = RUST_HEAD
    for name, remark in TYPES.values():
        text += f"pub type {name} = {'u64' if name == 'Val' else 'Val'};" + (f" // {remark}" if remark else "") + "\n"
    text += RUST_MACRO
    for line in table:
        text += f"\n// {line}\n" if isinstance(line, str) else rust_declaration(*line)
    return text


def files():
    """Returns the text of each file that is made."""
    table = read_table(ROWS.read_text(encoding="utf-8"))
    return {INCLUDE / "soroban_host.h": c_header(table), INCLUDE / "soroban_host.rs": rust_header(table)}


def main():
    if sys.argv[1:] == ["--check"]:
        for file, text in files().items():
            if not file.exists() or file.read_text(encoding="utf-8") != text:
                sys.exit(f"{file.relative_to(TOP)} is not what {ROWS.relative_to(TOP)} says: run tools/host_header.py")
            print(f"{file.relative_to(TOP)} is what {ROWS.relative_to(TOP)} says")
    elif sys.argv[1:]:
        sys.exit(__doc__)
    else:
        for file, text in files().items():
            file.write_text(text, encoding="utf-8")


if __name__ == "__main__":
    main()
