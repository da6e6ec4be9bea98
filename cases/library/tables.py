"""What is read of containers: headers, sections, libraries, imports, relocation headers, exports and entry points, by their fields."""
import ctypes
import struct

from data.damaged import LIBRARIES, VECTORS, with_words

# Other words in the container's header: the date and the versions, with the reserved word.
HEADER = [(16, 0xB0000001), (20, 0x01000002), (24, 0x02000003), (28, 0x03000004), (36, 0x05000006)]

# Other words in the header of section 2, which isn't instantiated: all its fields but the size and the offset of the raw data.
SECTION = [(96, 0xFFFFFFFE), (100, 0x01000002), (104, 0x02000003), (108, 0x03000004), (120, 0x04050607)]

# The option byte of library 0 of `LIBRARIES`, and whether it is weak, and initialized first.
OPTIONS = [(0x00, False, False), (0x40, True, False), (0x80, False, True), (0xC0, True, True), (0x3F, False, False), (0xFF, True, True)]

# The byte with the class of import 2 of `LIBRARIES`, its class, and whether it is weak.
CLASSES = [(code, code, False) for code in range(16)] + [(0x80, 0, True), (0x85, 5, True), (0x8F, 15, True), (0xF1, 1, True)]

# Libraries of 16,386 imports, out of order: library 0 has the last two imports, and library 1 all but the last.
COUNT = 16_386
OUT_OF_ORDER = [(2, 16_384), (16_385, 0)]

# Imports on both sides of the ends of two blocks of 4,096, and their libraries, in rising order, and back again.
OWNED = [(0, 1), (4_095, 1), (4_096, 1), (16_383, 1), (16_384, 0), (16_385, 0), (16_383, 1), (0, 1)]


def many_imports():
    """A container that has a loader section alone, with these imports. All names are empty."""
    rows = b"".join(struct.pack(">5I4x", 0, 0, 0, count, first) for count, first in OUT_OF_ORDER) + bytes(4 * COUNT)
    end = 56 + len(rows)
    loader = struct.pack(">iIiIiI8I", -1, 0, -1, 0, -1, 0, len(OUT_OF_ORDER), COUNT, 0, end, end, end + 4, 0, 0) + rows + bytes(4)
    head = b"Joy!peffpwpc" + struct.pack(">5I2HI", 1, 0, 0, 0, 0, 1, 0, 0)
    return head + struct.pack(">iIIIIIBBBB", -1, 0, 0, 0, len(loader), 68, 4, 4, 4, 0) + loader


def libraries_of_imports(pef, contents, start, count, call):
    """The numbers of the libraries of some imports, read by one call."""
    rows, found = (pef._Import * count)(*[pef._Import(pef._no_bytes())] * count), ctypes.c_size_t()
    answer = getattr(pef.library(), call)(contents, len(contents), start, rows, count, ctypes.byref(found))
    return answer, [it.library for it in rows[: found.value]]


def of_headers(pef):
    it = pef.Container(with_words(VECTORS, HEADER)).header
    found = it.date, it.old_def_version, it.old_imp_version, it.current_version, it.section_count, it.instantiated_section_count
    yield "a header", found, (0xB0000001, 0x01000002, 0x02000003, 0x03000004, 3, 2)
    code, data, loader = pef.Container(with_words(VECTORS, SECTION)).sections
    found = [(it.number, it.name, it.kind, it.share, it.alignment, it.default_address, it.instantiated) for it in (code, data, loader)]
    expected = [(0, None, 0, 4, 4, 0, True), (1, None, 1, 1, 4, 0, True), (2, None, 4, 5, 6, 0x01000002, False)]
    yield "fields of section headers", found, expected
    found = [(it.total_size, it.unpacked_size, it.container_offset, it.raw) for it in (code, data, loader)]
    expected = [(8, 8, 0x80, VECTORS[128:136]), (16, 16, 0x90, VECTORS[144:160]), (0x02000003, 0x03000004, 0xA0, VECTORS[160:])]
    yield "sizes and raw data", found, expected


def of_imports(pef):
    container = pef.Container(LIBRARIES)
    first, second = pef.Library("L", 5, 3, True, False), pef.Library("M", 1, 0, False, True)
    # import 1 is in both ranges, and belongs to the first
    imports = [pef.Import("v", "L", 1, False), pef.Import("w", "L", 2, True), pef.Import("xy", "M", 4, False)]
    yield "libraries", container.libraries, [first, second]
    yield "imports", container.imports, imports
    yield "nothing else", (container.relocations, container.exports, container.entries, container.find_export("")), ([], [], {}, None)
    yield "imports by their names", [container.find_import(it.name) for it in imports], list(enumerate(imports))
    yield "ranges in order", pef.Container(with_words(LIBRARIES, [(160, 1), (164, 2)])).imports, imports
    for options, weak, before in OPTIONS:
        library = pef.Container(with_words(LIBRARIES, [(144, options << 24)])).libraries[0]
        yield f"the options {options:02X}", (library.weak, library.init_before), (weak, before)
    for byte, code, weak in CLASSES:
        found = pef.Container(with_words(LIBRARIES, [(180, byte << 24 | 8)])).imports[2]
        yield f"the class in {byte:02X}", (found.symbol_class, found.weak, found.name), (code, weak, "xy")
    contents = many_imports()
    for call in "pef_imports", "pef_partial_imports":
        yield f"the libraries of all imports by {call}", libraries_of_imports(pef, contents, 0, COUNT, call), (0, [1] * 16_384 + [0] * 2)
        for number, library in OWNED:
            yield f"the library of import {number:,} by {call}", libraries_of_imports(pef, contents, number, 1, call), (0, [library])


def of_the_rest(pef):
    container = pef.Container(VECTORS)
    yield "a relocation header", container.relocations, [pef.Relocation(1, VECTORS[228:230])]
    yield "an export", container.exports, [pef.Export("go", 1, 0, 2)]
    yield "its name", [container.find_export(name) for name in ("go", "g", "goo")], [(0, pef.Export("go", 1, 0, 2)), None, None]
    yield "an entry point", container.entries, {"main": pef.Entry(1, 0)}
    yield "no libraries", (container.libraries, container.imports, container.find_import("go")), ([], [], None)
    # the number of the export is the one in the order of the keys, also if its key isn't the hash word, or its slot has no keys
    for words in [(236, 0x000200A2)], [(232, 0)]:
        yield f"the export if {words}", pef.Container(with_words(VECTORS, words)).find_export("go"), (0, pef.Export("go", 1, 0, 2))


def checks(pef):
    for table in of_headers, of_imports, of_the_rest:
        yield from table(pef)
