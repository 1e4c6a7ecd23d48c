"""Reads the binary format of WebAssembly as far as this host accepts it, and says where and why it accepts no more.

That is core section 5 of version 1.0 with the sign extensions, without floats, start functions, and imports other than
functions. What is read here is what `vet` does not call `not a module`; types are not checked.
"""
from __future__ import annotations

from typing import Callable, Dict, List, NamedTuple, Optional, Tuple, TypeVar

Item = TypeVar("Item")

MAGIC = b"\0asm\1\0\0\0"
VALUE_TYPES = {0x7F: "i32", 0x7E: "i64"}
OTHER_TYPES = {0x7D: "f32", 0x7C: "f64", 0x7B: "v128", 0x70: "funcref", 0x6F: "externref"}
SECTIONS = (
    "custom",
    "type",
    "import",
    "function",
    "table",
    "memory",
    "global",
    "export",
    "start",
    "element",
    "code",
    "data",
)
IMPORT_KINDS = ("function", "table", "memory", "global", "tag")
MOST_NESTED = 1000
NEWER = "build with -mcpu=mvp, or in Rust with -C target-cpu=mvp"


class BadModule(ValueError):
    """Bytes that this host takes for no module: the offset, the reason, and the function that holds it, if one does."""

    def __init__(self, offset: int, why: str, function: Optional[int] = None) -> None:
        super().__init__(f"at {offset}: {why}")
        self.offset, self.why, self.function = offset, why, function


class FuncType(NamedTuple):
    params: List[str]
    results: List[str]

    def __str__(self) -> str:
        return f"({listed(self.params)}) -> ({listed(self.results)})"


def listed(types: List[str]) -> str:
    """Returns types for people; of many, the first ones."""
    return ", ".join(types if len(types) <= 12 else [*types[:10], f".. {len(types):,} in all"])


def shown(name: str) -> str:
    """Returns a name for people. A module may give any; of control characters and the like only the codes are shown."""
    text = "".join(char if char.isprintable() else char.encode("unicode_escape").decode() for char in name[:200])
    return text if len(name) <= 64 else f"{text[:60]}.."


class Import(NamedTuple):
    module: str
    name: str
    type_index: int


class Global(NamedTuple):
    type: str
    mutable: bool
    start: Optional[int]  # its value at the start, if it is a constant


class Export(NamedTuple):
    name: str
    kind: int
    target: int  # the index of what is exported


class Segment(NamedTuple):
    offset: Optional[int]  # where it begins, if that is a constant
    size: int


class Limits(NamedTuple):
    least: int
    most: Optional[int]


class Module:
    """The parts of a module. Functions are counted with the imported ones before them."""

    def __init__(self) -> None:
        self.types: List[FuncType] = []
        self.imports: List[Import] = []
        self.functions: List[int] = []  # indices of types
        self.tables: List[Limits] = []
        self.memories: List[Limits] = []
        self.globals: List[Global] = []
        self.exports: List[Export] = []
        self.elements: List[Segment] = []
        self.bodies: List[Tuple[int, int]] = []  # offset and locals
        self.data: List[Segment] = []
        self.customs: List[Tuple[str, int]] = []  # names and sizes
        self.names: Dict[int, str] = {}  # of functions, by the section `name`

    def type_of(self, function: int) -> Optional[FuncType]:
        """Returns the type of a function, if it has one."""
        own = function - len(self.imports)
        if own >= len(self.functions):
            return None
        index = self.functions[own] if own >= 0 else self.imports[function].type_index
        return self.types[index] if index < len(self.types) else None

    def function_name(self, function: int) -> str:
        """Returns how to speak of a function: its number, and its name or an export's."""
        exported = [export.name for export in self.exports if export.kind == 0 and export.target == function]
        name = self.names.get(function) or (exported[0] if exported else "")
        return f"function {function}" + (f" ({shown(name)})" if name else "")


class Bytes:
    """Reads a module's bytes, and knows where it is."""

    def __init__(self, data: bytes) -> None:
        self.data, self.at, self.end = data, 0, len(data)
        self.function: Optional[int] = None

    def bad(self, why: str, at: Optional[int] = None) -> BadModule:
        return BadModule(self.at if at is None else at, why, self.function)

    def byte(self) -> int:
        if self.at >= self.end:
            what = "the bytes end" if self.end == len(self.data) else "the section or the function ends"
            raise self.bad(f"{what} too early")
        self.at += 1
        return self.data[self.at - 1]

    def take(self, size: int) -> bytes:
        if size > self.end - self.at:
            raise self.bad(f"{size} bytes are announced, and {self.end - self.at} are left")
        self.at += size
        return self.data[self.at - size : self.at]

    def unsigned(self, bits: int = 32) -> int:
        """Reads a number of LEB128 (core section 5.2.2)."""
        start, number, shift = self.at, 0, 0
        while True:
            byte = self.byte()
            number |= (byte & 0x7F) << shift
            shift += 7
            if byte < 0x80:
                if number >= 1 << bits:
                    raise self.bad(f"a number of more than {bits} bits", start)
                return number
            if shift >= bits:
                raise self.bad("a number of too many bytes", start)

    def signed(self, bits: int) -> int:
        """Reads a signed number of LEB128."""
        start, number, shift = self.at, 0, 0
        while True:
            byte = self.byte()
            number |= (byte & 0x7F) << shift
            shift += 7
            if byte < 0x80:
                number -= (1 << shift) if byte & 0x40 else 0
                if not -(1 << bits - 1) <= number < 1 << bits - 1:
                    raise self.bad(f"a number of more than {bits} bits", start)
                return number
            if shift >= bits:
                raise self.bad("a number of too many bytes", start)

    def name(self) -> str:
        start, text = self.at, self.take(self.unsigned())
        try:
            return text.decode()
        except UnicodeDecodeError:
            raise self.bad("a name that is no UTF-8", start) from None

    def vector(self, item: Callable[[], Item]) -> List[Item]:
        return [item() for _ in range(self.unsigned())]

    def within(self, size: int, read: Callable[[], Item], what: str) -> Item:
        """Reads an item that takes exactly so many bytes."""
        if size > self.end - self.at:
            raise self.bad(f"{what} announces {size} bytes, and {self.end - self.at} are left")
        outer, self.end = self.end, self.at + size
        item = read()
        if self.at != self.end:
            raise self.bad(f"{what} ends {self.end - self.at} bytes before its announced end")
        self.end = outer
        return item

    def value_type(self) -> str:
        start, byte = self.at, self.byte()
        if byte not in VALUE_TYPES:
            raise self.bad(f"the type {OTHER_TYPES.get(byte, hex(byte))}: only i32 and i64 are accepted", start)
        return VALUE_TYPES[byte]


def read(data: bytes) -> Module:
    """Returns the parts of a module, or raises `BadModule`."""
    if data[: len(MAGIC)] != MAGIC:
        at = next((index for index, byte in enumerate(MAGIC) if data[index : index + 1] != bytes([byte])), 0)
        raise BadModule(at, "a module begins with the bytes 00 61 73 6d and the version 01 00 00 00")
    module, reader, last = Module(), Bytes(data), 0
    reader.at = len(MAGIC)
    while reader.at < len(data):
        start, number = reader.at, reader.byte()
        size = reader.unsigned()
        if number in (8, 12) or number >= len(SECTIONS):
            raise BadModule(start, unknown_section(number))
        if number and number <= last:
            raise BadModule(start, f"the section {SECTIONS[number]} stands behind the section {SECTIONS[last]}")
        last = number or last
        what = f"the section {SECTIONS[number]}"
        reader.within(size, SectionReader(module, reader).content_of(number), what)
    if len(module.bodies) != len(module.functions):
        raise BadModule(
            len(data), f"{len(module.functions)} functions are announced, and {len(module.bodies)} have a body"
        )
    return module


def unknown_section(number: int) -> str:
    if number == 8:
        return "a start function: contracts have none"
    if number == 12:
        return f"a count of data segments, which belongs to bulk memory: {NEWER}"
    return f"a section of number {number}, which WebAssembly 1.0 does not have"


class SectionReader:
    """Reads the content of a section into a module."""

    def __init__(self, module: Module, reader: Bytes) -> None:
        self.module, self.reader = module, reader

    def content_of(self, number: int) -> Callable[[], None]:
        """Returns what reads the content of the section with a number."""
        read: Callable[[], None] = getattr(self, f"read_{SECTIONS[number]}")
        return read

    def read_custom(self) -> None:
        name = self.reader.name()
        self.module.customs.append((name, self.reader.end - self.reader.at))
        content = self.reader.take(self.reader.end - self.reader.at)
        if name == "name":
            self.module.names = function_names(content)

    def read_type(self) -> None:
        self.module.types = self.reader.vector(self.func_type)

    def func_type(self) -> FuncType:
        if self.reader.byte() != 0x60:
            raise self.reader.bad("a type of a function begins with 60", self.reader.at - 1)
        return FuncType(self.reader.vector(self.reader.value_type), self.reader.vector(self.reader.value_type))

    def read_import(self) -> None:
        self.module.imports = self.reader.vector(self.imported)

    def imported(self) -> Import:
        start = self.reader.at
        module, name = self.reader.name(), self.reader.name()
        kind = self.reader.byte()
        if kind:
            what = IMPORT_KINDS[kind] if kind < len(IMPORT_KINDS) else f"thing of kind {kind}"
            hint = ": link without --import-memory" if kind == 2 else ""
            imported = f"{shown(module)}.{shown(name)}"
            raise self.reader.bad(f"the import {imported} of a {what}; only functions are accepted{hint}", start)
        return Import(module, name, self.reader.unsigned())

    def read_function(self) -> None:
        self.module.functions = self.reader.vector(self.reader.unsigned)

    def read_table(self) -> None:
        self.module.tables = self.reader.vector(self.table)

    def table(self) -> Limits:
        if self.reader.byte() != 0x70:
            raise self.reader.bad("a table of other things than functions", self.reader.at - 1)
        return self.limits()

    def limits(self) -> Limits:
        flag = self.reader.byte()
        if flag > 1:
            raise self.reader.bad("a memory or table that is shared or has 64 bits", self.reader.at - 1)
        return Limits(self.reader.unsigned(), self.reader.unsigned() if flag else None)

    def read_memory(self) -> None:
        self.module.memories = self.reader.vector(self.limits)

    def read_global(self) -> None:
        self.module.globals = self.reader.vector(self.global_)

    def global_(self) -> Global:
        type_, mutable = self.reader.value_type(), self.reader.byte()
        if mutable > 1:
            raise self.reader.bad(f"a global of mutability {mutable}", self.reader.at - 1)
        return Global(type_, bool(mutable), expression(self.reader))

    def read_export(self) -> None:
        self.module.exports = self.reader.vector(self.export)

    def export(self) -> Export:
        name, kind = self.reader.name(), self.reader.byte()
        if kind > 3:
            raise self.reader.bad(f"the export {shown(name)} of a thing of kind {kind}", self.reader.at - 1)
        return Export(name, kind, self.reader.unsigned())

    def read_element(self) -> None:
        self.module.elements = self.reader.vector(self.element)

    def element(self) -> Segment:
        self.reader.unsigned()
        return Segment(expression(self.reader), len(self.reader.vector(self.reader.unsigned)))

    def read_code(self) -> None:
        self.reader.function = len(self.module.imports)
        self.module.bodies = self.reader.vector(self.sized_body)
        self.reader.function = None

    def sized_body(self) -> Tuple[int, int]:
        size = self.reader.unsigned()
        found = self.reader.within(size, self.body, "the function")
        self.reader.function = (self.reader.function or 0) + 1
        return found

    def body(self) -> Tuple[int, int]:
        start = self.reader.at
        groups = self.reader.vector(lambda: (self.reader.unsigned(), self.reader.value_type()))
        count = sum(number for number, _ in groups)
        if count >= 1 << 32:
            raise self.reader.bad("2^32 locals or more", start)
        expression(self.reader)
        return start, count

    def read_data(self) -> None:
        self.module.data = self.reader.vector(self.segment)

    def segment(self) -> Segment:
        self.reader.unsigned()
        return Segment(expression(self.reader), len(self.reader.take(self.reader.unsigned())))


# ---- Code

BLOCK, LOOP, IF, ELSE, END = 0x02, 0x03, 0x04, 0x05, 0x0B
PLAIN = {0x00, 0x01, 0x0F, 0x1A, 0x1B, *range(0x45, 0x5B), *range(0x67, 0x8B), 0xA7, 0xAC, 0xAD, *range(0xC0, 0xC5)}
ONE_INDEX = {0x0C, 0x0D, 0x10, *range(0x20, 0x25)}
MEMORY = {0x28, 0x29, *range(0x2C, 0x38), *range(0x3A, 0x3F)}


def expression(reader: Bytes) -> Optional[int]:
    """Reads instructions up to the end of the expression; returns the number if they are one constant."""
    blocks: List[int] = []
    constants: List[Optional[int]] = []
    while True:
        start, opcode = reader.at, reader.byte()
        if opcode == END:
            if not blocks:
                return constants[0] if len(constants) == 1 else None
            blocks.pop()
        elif opcode == ELSE:
            if not blocks or blocks[-1] != IF:
                raise reader.bad("an else without its if", start)
            blocks[-1] = ELSE
        elif opcode in (BLOCK, LOOP, IF):
            block_type(reader)
            blocks.append(opcode)
            if len(blocks) > MOST_NESTED:
                raise reader.bad(f"more than {MOST_NESTED} nested blocks", start)
        else:
            constants.append(instruction(reader, opcode, start))


def block_type(reader: Bytes) -> None:
    start, byte = reader.at, reader.byte()
    if byte != 0x40 and byte not in VALUE_TYPES:
        several = f"a block with parameters or several results: {NEWER}"
        raise reader.bad(f"a block of type {OTHER_TYPES[byte]}" if byte in OTHER_TYPES else several, start)


def instruction(reader: Bytes, opcode: int, start: int) -> Optional[int]:
    """Reads the rest of an instruction that is no block; returns the number of a constant."""
    if opcode in PLAIN:
        return None
    if opcode in (0x41, 0x42):
        return reader.signed(32 if opcode == 0x41 else 64)
    if opcode in ONE_INDEX:
        reader.unsigned()
    elif opcode in MEMORY:
        reader.unsigned()
        reader.unsigned()
    elif opcode == 0x0E:
        reader.vector(reader.unsigned)
        reader.unsigned()
    elif opcode in (0x11, 0x3F, 0x40):
        if opcode == 0x11:
            reader.unsigned()
        if reader.byte():
            raise reader.bad("the index of another memory or table than the first", reader.at - 1)
    else:
        raise reader.bad(refused(opcode, reader), start)
    return None


FLOATS = {
    0x2A,
    0x2B,
    0x38,
    0x39,
    0x43,
    0x44,
    *range(0x5B, 0x67),
    *range(0x8B, 0xA7),
    *range(0xA8, 0xAC),
    *range(0xAE, 0xC0),
}
EXCEPTIONS = {0x06, 0x07, 0x08, 0x09, 0x0A, 0x18, 0x19, 0x1F}
TAIL_CALLS = {0x12, 0x13, 0x14, 0x15}
REFERENCES = {0x1C, 0x25, 0x26, *range(0xD0, 0xD7)}


def refused(opcode: int, reader: Bytes) -> str:
    """Says what an instruction is that this host does not accept."""
    name = f"the instruction {opcode:02x}"
    if opcode in FLOATS:
        return f"{name}, of floats: contracts have none; count in whole numbers"
    if opcode == 0xFC:
        number = reader.unsigned()
        if number < 8:
            return f"{name} {number}, a saturating conversion of floats: contracts have none"
        return f"{name} {number}, of bulk memory (such as memory.copy): {NEWER}, with memcpy of your own"
    if opcode == 0xFD:
        return f"{name}, of SIMD: {NEWER}"
    if opcode == 0xFE:
        return f"{name}, of threads: {NEWER}"
    for kind, opcodes in (("exceptions", EXCEPTIONS), ("tail calls", TAIL_CALLS), ("reference types", REFERENCES)):
        if opcode in opcodes:
            return f"{name}, of {kind}: {NEWER}"
    return f"{name}, which WebAssembly 1.0 does not have"


def function_names(content: bytes) -> Dict[int, str]:
    """Returns the functions' names of the section `name`; none if it is malformed."""
    names: Dict[int, str] = {}
    reader = Bytes(content)
    try:
        while reader.at < len(content):
            kind, size = reader.byte(), reader.unsigned()
            end = reader.at + size
            if kind == 1:
                names.update(reader.vector(lambda: (reader.unsigned(), reader.name())))
            reader.at = end
    except BadModule:
        return names
    return names
