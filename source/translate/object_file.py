"""Reads a relocatable object, as `clang --target=wasm64 -c` writes it: types, functions, data, symbols, relocations.

The format is that of the core specification of WebAssembly, and of "WebAssembly Object File Linking" in its tool conventions.
"""
from dataclasses import dataclass, field

from .bytes_reader import BytesReader
from .errors import Unknown, check

# Sections.
CUSTOM, TYPES, IMPORTS, FUNCTIONS, MEMORIES, CODE, DATA, DATA_COUNT = 0, 1, 2, 3, 5, 10, 11, 12
# Subsections of `linking`.
SEGMENT_NAMES, SYMBOLS = 5, 8
# What a symbol is.
FUNCTION_SYMBOL, DATA_SYMBOL, GLOBAL_SYMBOL, SECTION_SYMBOL, TABLE_SYMBOL = 0, 1, 2, 3, 5
# Flags of a symbol.
WEAK, LOCAL, HIDDEN, UNDEFINED, EXPLICIT_NAME = 0x1, 0x2, 0x4, 0x10, 0x40
# Relocations: an index of a function or a global, or an address as a number in seven bits a byte or of eight bytes.
FUNCTION_INDEX, GLOBAL_INDEX, ADDRESS_OFFSET, ADDRESS_CONSTANT, ADDRESS_DATA = 0, 7, 14, 15, 16
HAS_ADDEND = {ADDRESS_OFFSET, ADDRESS_CONSTANT, ADDRESS_DATA}
STACK_POINTER = "__stack_pointer"


@dataclass
class Symbol:
    kind: int
    flags: int
    name: str = ""
    index: int = 0
    offset: int = 0


@dataclass
class Relocation:
    kind: int
    symbol: int
    addend: int


@dataclass
class Function:
    parameters: tuple
    results: tuple
    name: str = ""
    is_imported: bool = False
    is_exported: bool = False
    locals: list = field(default_factory=list)
    start: int = 0
    end: int = 0


@dataclass
class Segment:
    bytes: bytes
    start: int
    name: str = ""
    align: int = 1
    relocations: list = field(default_factory=list)  # pairs of an offset and a Relocation


class ObjectFile:
    def __init__(self, data):
        self.data = data
        self.types, self.functions, self.segments, self.symbols, self.globals = [], [], [], [], []
        self.imported, self.starts, self.contents = 0, [], {}
        self.code_relocations, self.data_relocations = {}, {}
        reader = BytesReader(data)
        check(reader.take(8) == b"\0asm\1\0\0\0", "this is no object of WebAssembly")
        while reader.at < len(data):
            code, size = reader.byte(), reader.unsigned()
            self.starts.append(reader.at)
            reader.take(size)
            self.read_section(code, BytesReader(data, reader.at - size, reader.at))
        self.name_functions()
        self.place_relocations()

    def read_section(self, code, reader):
        read = {CUSTOM: self.read_custom, TYPES: self.read_types, IMPORTS: self.read_imports, FUNCTIONS: self.read_functions,
                CODE: self.read_code, DATA: self.read_data, DATA_COUNT: BytesReader.unsigned}.get(code)
        check(read, f"section {code} of an object")
        self.contents[code] = len(self.starts) - 1
        read(reader)

    def read_types(self, reader):
        self.types = reader.list(lambda: self.read_type(reader))

    def read_type(self, reader):
        check(reader.byte() == 0x60, "a type that is none of a function")
        parameters, results = (tuple(reader.list(reader.value_type)) for _ in range(2))
        check(len(results) < 2, "a function with several results")
        return parameters, results

    def read_imports(self, reader):
        reader.list(lambda: self.read_import(reader))
        self.imported = len(self.functions)

    def read_import(self, reader):
        _, name, kind = reader.name(), reader.name(), reader.byte()
        if kind == 0:
            self.functions.append(Function(*self.types[reader.unsigned()], name, is_imported=True))
        elif kind == 2:
            has_most = reader.byte() & 1
            reader.unsigned(), has_most and reader.unsigned()
        elif kind == 3:
            reader.value_type(), reader.byte()
            self.globals.append(name)
        else:
            raise Unknown(f"the import {name} of kind {kind}")

    def read_functions(self, reader):
        self.functions += [Function(*self.types[number]) for number in reader.list(reader.unsigned)]

    def read_code(self, reader):
        bodies = iter(self.functions[self.imported:])
        reader.list(lambda: self.read_body(reader, next(bodies)))

    def read_body(self, reader, function):
        function.end = reader.unsigned() + reader.at
        for _ in range(reader.unsigned()):
            count = reader.unsigned()
            function.locals += [reader.value_type()] * count
        function.start = reader.at
        reader.take(function.end - reader.at)

    def read_data(self, reader):
        reader.list(lambda: self.read_segment(reader))

    def read_segment(self, reader):
        flags, code = reader.unsigned(), reader.byte()
        check(flags == 0 and code == 0x42, "a segment of data that isn't at a constant place of 64 bits")
        reader.signed(), reader.byte()
        size = reader.unsigned()
        self.segments.append(Segment(reader.take(size), reader.at - size))

    def read_custom(self, reader):
        name = reader.name()
        if name == "linking":
            self.read_linking(reader)
        elif name.startswith("reloc."):
            self.read_relocations(reader)

    def read_linking(self, reader):
        check(reader.unsigned() == 2, "a version of linking that isn't 2")
        while reader.at < reader.end:
            kind, size = reader.byte(), reader.unsigned()
            after = reader.at + size
            if kind == SEGMENT_NAMES:
                for segment in self.segments[:reader.unsigned()]:
                    segment.name, segment.align = reader.name(), 1 << reader.unsigned()
                    reader.unsigned()
            elif kind == SYMBOLS:
                self.symbols = reader.list(lambda: self.read_symbol(reader))
            reader.at = after

    def read_symbol(self, reader):
        symbol = Symbol(reader.byte(), reader.unsigned())
        is_defined = not symbol.flags & UNDEFINED
        if symbol.kind == DATA_SYMBOL:
            symbol.name = reader.name()
            if is_defined:
                symbol.index, symbol.offset, _ = reader.unsigned(), reader.unsigned(), reader.unsigned()
        elif symbol.kind == SECTION_SYMBOL:
            symbol.index = reader.unsigned()
        elif symbol.kind in (FUNCTION_SYMBOL, GLOBAL_SYMBOL, TABLE_SYMBOL):
            symbol.index = reader.unsigned()
            if is_defined or symbol.flags & EXPLICIT_NAME:
                symbol.name = reader.name()
        else:
            raise Unknown(f"a symbol of kind {symbol.kind}")
        return symbol

    def read_relocations(self, reader):
        section = reader.unsigned()
        into = {self.contents.get(CODE): self.code_relocations, self.contents.get(DATA): self.data_relocations}.get(section)
        if into is None:
            return  # of what is for a debugger
        for _ in range(reader.unsigned()):
            kind, offset, symbol = reader.byte(), reader.unsigned(), reader.unsigned()
            check(kind in HAS_ADDEND or kind in (FUNCTION_INDEX, GLOBAL_INDEX), f"a relocation of kind {kind}")
            addend = reader.signed() if kind in HAS_ADDEND else 0
            into[self.starts[section] + offset] = Relocation(kind, symbol, addend)

    def name_functions(self):
        for symbol in self.symbols:
            if symbol.kind == FUNCTION_SYMBOL:
                function = self.functions[symbol.index]
                function.name = symbol.name or function.name
                function.is_exported |= not symbol.flags & (LOCAL | HIDDEN | UNDEFINED)

    def place_relocations(self):
        """Gives each relocation of data to its segment."""
        starts = sorted((segment.start, number) for number, segment in enumerate(self.segments))
        at = 0
        for place in sorted(self.data_relocations):
            while at + 1 < len(starts) and starts[at + 1][0] <= place:
                at += 1
            segment = self.segments[starts[at][1]]
            segment.relocations.append((place - segment.start, self.data_relocations[place]))

    def data_address(self, relocation):
        """The number of the segment that a relocation names, and the offset in it."""
        symbol = self.symbols[relocation.symbol]
        check(symbol.kind == DATA_SYMBOL and not symbol.flags & UNDEFINED, f"the address of {symbol.name}")
        return symbol.index, symbol.offset + relocation.addend
