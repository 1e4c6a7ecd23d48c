"""Says of a module what `vet` does not: which import does not link and which one was meant, the instruction that is not accepted
and the function that holds it, exports that cannot be called, and what makes calls dear or wrong."""
from __future__ import annotations

import difflib
import re
from typing import Iterator, List, NamedTuple, Optional

from . import wasm
from .host_functions import HOST_FUNCTIONS
from .program import Program
from .wasm import shown

C_LIBRARY = {"memcpy", "memset", "memmove", "memcmp", "strlen", "strcmp", "abort", "malloc", "free"}
WIDE_ARITHMETIC = {"__multi3", "__divti3", "__udivti3", "__modti3", "__umodti3", "__ashlti3", "__lshrti3", "__ashrti3"}
CALLED_BY_HOST = {"__constructor": None, "__check_auth": 3}
MOST_FINDINGS = 20  # of one kind
MOST_PAGES, MOST_ELEMENTS, MOST_LOCALS = 64, 65_536, 4096
PAGE = 65_536


class Finding(NamedTuple):
    """Something to say of a module. `vet` refuses the module for an `error`."""

    level: str  # error, warning or note
    text: str

    def __str__(self) -> str:
        return f"{self.level}: {self.text}"


def lint(data: bytes, program: Optional[Program] = None) -> List[Finding]:
    """Returns the findings on a module, errors first. With the program, its `vet` adds the function that is ill typed."""
    try:
        module = wasm.read(data)
    except wasm.BadModule as fault:
        inside = "" if fault.function is None else f" of {named(data, fault.function)}"
        return [Finding("error", f"not a module: at {fault.offset} (0x{fault.offset:x}){inside}: {fault.why}")]
    found = [finding for of_a_kind in KINDS for finding in few(of_a_kind(module))]
    if program is not None:
        found += typing(module, program.vet(data))
    return sorted(found, key=lambda finding: ("error", "warning", "note").index(finding.level))


def few(found: Iterator[Finding]) -> Iterator[Finding]:
    """Yields the first findings of a kind, and says whether there are more."""
    for number, finding in enumerate(found):
        if number == MOST_FINDINGS:
            yield Finding(finding.level, "and more of this kind")
            return
        yield finding


def named(data: bytes, function: int) -> str:
    """Returns the name of a function of a module that cannot be read whole: names stand behind the code, or are exported."""
    module, reader = wasm.Module(), wasm.Bytes(data)
    reader.at = len(wasm.MAGIC)
    while reader.at < len(data):
        try:
            number, size = reader.byte(), reader.unsigned()
            content = wasm.Bytes(reader.take(size))
            if number in (0, 2, 7):
                wasm.SectionReader(module, content).content_of(number)()
        except wasm.BadModule:
            break
    return module.function_name(function)


# ---- Imports


def imports(module: wasm.Module) -> Iterator[Finding]:
    for index, imported in enumerate(module.imports):
        type_ = module.types[imported.type_index] if imported.type_index < len(module.types) else None
        count = HOST_FUNCTIONS.get((imported.module, imported.name))
        name = f"import {index}, {shown(imported.module)}.{shown(imported.name)},"
        if count is None:
            yield Finding("error", f"unlinked: {name} is no function of the host: {meant(imported)}")
        elif type_ is None or type_ != wasm.FuncType(["i64"] * count, ["i64"]):
            wanted = wasm.FuncType(["i64"] * count, ["i64"])
            yield Finding("error", f"unlinked: {name} has the type {type_}; the host's is {wanted}")


def meant(imported: wasm.Import) -> str:
    """Guesses which function an import means."""
    letters = [letter for letter, name in HOST_FUNCTIONS if name == imported.name]
    if letters:
        return f"{imported.name} is in the module {letters[0]}"
    if imported.name in C_LIBRARY:
        return "the compiler calls this function of the C library: define it in the contract"
    if imported.name in WIDE_ARITHMETIC:
        return (
            "the compiler calls it for numbers of 128 bits: link compiler-rt's builtins, or calculate with two halves"
        )
    if len(imported.name) <= 2 and len(imported.module) == 1:
        return "modules for the public network import such short names; here a function has its long name"
    names = {name: letter for letter, name in HOST_FUNCTIONS}
    near = difflib.get_close_matches(imported.name, names, 1, 0.6)
    return f"did you mean {names[near[0]]}.{near[0]}?" if near else "and no name of a host function is like it"


# ---- Limits, which make a module ill typed as a whole


def limits(module: wasm.Module) -> Iterator[Finding]:
    for what, units, parts, most in (
        ("memory", "pages", module.memories, MOST_PAGES),
        ("table", "elements", module.tables, MOST_ELEMENTS),
    ):
        if len(parts) > 1:
            yield Finding("error", f"ill typed: {len(parts)} parts of the kind {what}; one is accepted")
        for part in parts[:1]:
            if part.least > most:
                text = f"the {what} begins with {part.least:,} {units}; at most {most:,} are accepted"
                yield Finding("error", f"ill typed: {text}")
    for index, type_ in enumerate(module.types):
        if len(type_.results) > 1:
            yield Finding("error", f"ill typed: type {index} has {len(type_.results)} results; at most one is accepted")
    for index, (_, count) in enumerate(module.bodies):
        signature = module.type_of(len(module.imports) + index)
        if signature and len(signature.params) + count > MOST_LOCALS:
            name = module.function_name(len(module.imports) + index)
            text = f"{name} has {len(signature.params) + count:,} parameters and locals; at most {MOST_LOCALS:,} are accepted"
            yield Finding("error", f"ill typed: {text}")


def typing(module: wasm.Module, vetted: str) -> Iterator[Finding]:
    """Names the function that `vet` calls ill typed."""
    match = re.fullmatch(r"ill typed: function (\d+)", vetted)
    if match:
        yield Finding("error", f"ill typed: {module.function_name(int(match.group(1)))}")
    elif vetted == "ill typed: module":
        yield Finding("error", "ill typed: module, by a part outside of functions")


# ---- Exports


def exports(module: wasm.Module) -> Iterator[Finding]:
    for export in module.exports:
        fault = export_fault(module, export) if export.kind == 0 else None
        if fault:
            yield Finding("warning", f"the export {shown(export.name)} cannot be called: {fault}")


def nothing_to_call(module: wasm.Module) -> Iterator[Finding]:
    if not any(export.kind == 0 and export_fault(module, export) is None for export in module.exports):
        yield Finding("warning", "no export can be called")


def export_fault(module: wasm.Module, export: wasm.Export) -> Optional[str]:
    """Says why nobody can call an exported function, or nothing."""
    type_ = module.type_of(export.target)
    if type_ is None:
        return "there is no such function"
    if set(type_.params) - {"i64"} or type_.results != ["i64"]:
        return f"it is {type_}, and parameters and the one result have to be i64"
    if not re.fullmatch("[A-Za-z0-9_]{1,32}", export.name):
        return "no symbol has this name: a symbol has 1 to 32 letters, digits and underscores"
    if export.name.startswith("__") and export.name not in CALLED_BY_HOST:
        return "only the host calls names that begin with __, and of those __constructor and __check_auth"
    count = CALLED_BY_HOST.get(export.name)
    if count is not None and len(type_.params) != count:
        return f"the host gives it {count} arguments (payload, signature, contexts), and it has {len(type_.params)}"
    return None


# ---- Memory and sections


def memory(module: wasm.Module) -> Iterator[Finding]:
    for part in module.memories[:1]:
        if part.least > 1:
            hint = "a smaller stack helps: -z stack-size=4096 --stack-first"
            text = f"the memory begins with {part.least} pages: each call is charged {part.least * PAGE:,} bytes"
            yield Finding("note", f"{text}; {hint}")
    top = stack_top(module)
    below = [
        segment for segment in module.data if segment.offset is not None and top is not None and segment.offset < top
    ]
    if below:
        text = f"the stack begins at {top}, above static data at {below[0].offset}: if it overflows, it overwrites them unseen"
        yield Finding("warning", f"{text}. Link with --stack-first: then an overflow traps")


def stack_top(module: wasm.Module) -> Optional[int]:
    """Returns where the stack begins: linkers keep its pointer in the first global, an i32 that changes."""
    first = module.globals[0] if module.globals else None
    return first.start if first and first.type == "i32" and first.mutable else None


def sections(module: wasm.Module) -> Iterator[Finding]:
    debug = [
        (name, size)
        for name, size in module.customs
        if name.startswith((".debug", "name", "producers", "target_features"))
    ]
    for name, size in debug:
        yield Finding(
            "note",
            f"the section {shown(name)} has {size:,} bytes: code is charged by its length; link with --strip-all",
        )


KINDS = (imports, limits, exports, nothing_to_call, memory, sections)
