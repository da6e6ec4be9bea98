"""Files that are as hard to read as files of their length can be: each table at its largest, names that many rows share, and tables
that lead from row to row.

Each function takes a length in bytes and gives what is prepared: names and containers, of which the first is the root. Together
the containers are about as long. All numbers are chosen so that rows times what each row looks at is greatest.
"""
import dataclasses
import struct
from typing import Callable, Dict, Iterable, List, Sequence, Tuple

Fragments = List[Tuple[str, bytes]]

WEAK_LIBRARY, WEAK_IMPORT, DATA = 0x40, 0x80, 0x01
ABSOLUTE, REEXPORTED = -2, -3
MOST_SECTIONS, MOST_IN_A_SLOT, LONGEST_EXPORT = 65_534, 16_383, 65_535


# --- the parts of a container ---


def library(name: int, count: int, first: int = 0, options: int = WEAK_LIBRARY) -> bytes:
    """A row for a library whose name is at an offset of the strings, with so many imports."""
    return struct.pack(">5IBxxx", name, 0, 0, count, first, options)


def imports(names: Iterable[int], flags: int = WEAK_IMPORT | DATA) -> bytes:
    """A row for each import, by the offset of its name."""
    words = [flags << 24 | name for name in names]
    return struct.pack(f">{len(words)}I", *words)


def exports(rows: Iterable[Tuple[int, int, int]]) -> bytes:
    """A row for each export: the offset of its name, its value and its section."""
    return b"".join(struct.pack(">IIh", DATA << 24 | name, value, section) for name, value, section in rows)


def hash_of(name: bytes) -> int:
    """The key of a name: its length and its hash."""
    value = 0
    for byte in name:
        value = ((value << 1) - (value >> 16)) ^ byte
        value = (value + 0x80000000) % 0x100000000 - 0x80000000
    return len(name) << 16 | (value ^ value >> 16) & 0xFFFF


def export_table(power: int, names: Sequence[bytes], rows: Sequence[Tuple[int, int, int]]) -> bytes:
    """The export hash table of some names, whose rows are sorted by their slots."""
    keys = [hash_of(name) for name in names]
    slots: List[List[int]] = [[] for _ in range(1 << power)]
    for number, key in enumerate(keys):
        slots[(key ^ key >> power) % (1 << power)].append(number)
    order = [number for slot in slots for number in slot]
    heads, first = [], 0
    for slot in slots:
        heads.append(len(slot) << 18 | first)
        first += len(slot)
    return struct.pack(f">{len(heads) + len(keys)}I", *heads, *(keys[it] for it in order)) + exports(rows[it] for it in order)


def loader(
    libraries: bytes = b"", import_rows: bytes = b"", headers: bytes = b"", programs: bytes = b"", strings: bytes = b"",
    power: int = 0, export_count: int = 0, table: bytes = b"",
) -> bytes:  # fmt: skip
    """A loader section without entry points. Its parts are in the order of the arguments."""
    counts = len(libraries) // 24, len(import_rows) // 4, len(headers) // 12
    at = 56 + len(libraries) + len(import_rows) + len(headers)
    places = at, at + len(programs), at + len(programs) + len(strings)
    head = struct.pack(">iIiIiI8I", -1, 0, -1, 0, -1, 0, *counts, *places, power, export_count)
    return head + libraries + import_rows + headers + programs + strings + table


def section(total: int, unpacked: int = 0, packed: int = 0, at: int = 0, kind: int = 1, align: int = 4, name: int = -1) -> bytes:
    """The header of a section."""
    return struct.pack(">iIIIIIBBBB", name, 0, total, unpacked, packed, at, kind, 1, align, 0)


def container(end: bytes, headers: Sequence[bytes] = (), raw: bytes = b"", names: bytes = b"") -> bytes:
    """A container: the headers of its sections, the names of these, raw bytes, and the loader section."""
    count = len(headers) + 1
    at = 40 + 28 * count + len(names) + len(raw)
    head = b"Joy!peffpwpc" + struct.pack(">5I2HI", 1, 0, 0, 0, 0, count, len(headers), 0)
    return head + b"".join(headers) + section(0, packed=len(end), at=at, kind=4) + names + raw + end


# --- names that many rows share ---


def run_starts(count: int, length: int, runs: int) -> List[int]:
    """Where the names of rows begin that take those of some runs in turn, each run as long as the others."""
    starts = [run * (length // runs) for run in range(runs)]
    return [starts[number % runs] for number in range(count)]


def runs_of(length: int, runs: int) -> bytes:
    """So many names one after the other, each as long as the others."""
    return (b"n" * (length // runs - 1) + b"\0") * runs


def nested(count: int, length: int) -> List[int]:
    """Where the names of rows begin that all end together, each at another place."""
    return [number * 7919 % (length - 1) for number in range(count)]


def shared_imports(names: Callable[[int, int], List[int]], strings: Callable[[int], bytes], present: bool) -> Callable[[int], Fragments]:
    """Weak imports of a weak library `L`, which may be there, by long names."""

    def made(length: int) -> Fragments:
        room = length // 2
        texts = strings(room)
        rows = imports(names((length - room) // 4, len(texts)))
        made = container(loader(library(len(texts), len(rows) // 4), rows, strings=texts + b"L\0"))
        return [("it", made)] + ([("L", short_library())] if present else [])

    return made


def short_library() -> bytes:
    """A library with one export."""
    return container(loader(strings=b"a", export_count=1, table=export_table(0, [b"a"], [(0, 1, ABSOLUTE)])))


def shared_libraries(names: Callable[[int, int], List[int]], strings: Callable[[int], bytes]) -> Callable[[int], Fragments]:
    """Weak libraries that are all missing, by long names."""

    def made(length: int) -> Fragments:
        room = length // 2
        texts = strings(room)
        rows = b"".join(library(name, 0) for name in names((length - room) // 24, len(texts)))
        return [("it", container(loader(rows, strings=texts)))]

    return made


def long_export_names(length: int) -> Fragments:
    """Weak imports of one name of 65,535 bytes, of a library with exports of such names, all of the same bytes."""
    room, text = length // 4, b"n" * (LONGEST_EXPORT - 1)
    rows = imports([0] * (room // 4))
    user = container(loader(library(len(text) + 2, len(rows) // 4), rows, strings=text + b"m\0L\0"))
    count = room // 18
    table = struct.pack(">I", 0) + struct.pack(">I", LONGEST_EXPORT << 16) * count + exports((number % 999, 1, ABSOLUTE) for number in range(count))
    return [("it", user), ("L", container(loader(strings=b"n" * (LONGEST_EXPORT + 999), export_count=count, table=table)))]


# --- tables at their largest ---


def missing_libraries(length: int) -> Fragments:
    """Weak libraries of different names, none of which is there."""
    count = length // 32
    rows = b"".join(library(8 * number, 0) for number in range(count))
    return [("it", container(loader(rows, strings=b"".join(b"%07x\0" % number for number in range(count)))))]


def libraries_of_all(length: int) -> Fragments:
    """Libraries that each have all imports, so that the first of them has to be found."""
    room = length // 2
    count = room // 4
    rows = b"".join(library(0, 0 if number % 2 else count) for number in range(room // 24))
    return [("it", container(loader(rows, imports([0] * count), strings=b"L\0")))]


def libraries_of_one(length: int) -> Fragments:
    """Libraries of one import each, the last of which comes first."""
    count = length // 28
    rows = b"".join(library(0, 1, count - 1 - number) for number in range(count))
    return [("it", container(loader(rows, imports([0] * count), strings=b"L\0")))]


def empty_sections(align: Callable[[int], int]) -> Callable[[int], Fragments]:
    """As many empty sections as there can be, with alignments by their numbers."""

    def made(length: int) -> Fragments:
        count = min(length // 28, MOST_SECTIONS)
        return [("it", container(loader(), [section(0, align=align(number)) for number in range(count)]))]

    return made


def named_sections(length: int) -> Fragments:
    """Sections that share one long name."""
    count = min(length // 56, MOST_SECTIONS)
    return [("it", container(loader(), [section(0, name=0)] * count, names=b"n" * (length - 28 * count) + b"\0"))]


def one_chain(length: int) -> Fragments:
    """Weak imports of a name that a library lacks, whose exports are all in one slot."""
    texts = [b"%04x" % number for number in range(MOST_IN_A_SLOT)]
    table = export_table(0, texts, [(4 * number, 1, ABSOLUTE) for number in range(MOST_IN_A_SLOT)])
    rows = imports([0] * ((length - len(table)) // 4))
    user = container(loader(library(5, len(rows) // 4), rows, strings=b"none\0L\0"))
    return [("it", user), ("L", container(loader(strings=b"".join(texts), export_count=MOST_IN_A_SLOT, table=table)))]


def irregular(length: int) -> Fragments:
    """Weak imports of a name that a library lacks, whose keys aren't those of its names."""
    rows = imports([0] * (length // 8))
    user = container(loader(library(9, len(rows) // 4), rows, strings=b"8 bytes.\0L\0"))
    count = length // 2 // 18
    table = struct.pack(">I", 0) + struct.pack(">I", 8 << 16) * count + exports([(0, 1, ABSOLUTE)] * count)
    return [("it", user), ("L", container(loader(strings=b"8 Bytes.", export_count=count, table=table)))]


def reexports(last: int) -> Callable[[int], Fragments]:
    """A fragment that is its own library, each of whose imports is an export of the next one. The last export is as it is asked for."""

    def made(length: int) -> Fragments:
        count = length // 28
        texts = [b"%06x" % number for number in range(count)]
        rows = [(7 * number, number + 1, REEXPORTED) for number in range(count - 1)] + [(7 * (count - 1), 0, last)]
        strings = b"".join(text + b"\0" for text in texts) + b"it\0"
        user = library(7 * count, count, options=0)
        power = min(16, count.bit_length())
        names = imports(range(0, 7 * count, 7), DATA)
        return [("it", container(loader(user, names, strings=strings, power=power, export_count=count, table=export_table(power, texts, rows))))]

    return made


def relocation_headers(length: int) -> Fragments:
    """Relocation headers for one section, each with an instruction of its own."""
    count = length // 14
    headers = b"".join(struct.pack(">HHII", 0, 0, 1, 2 * number) for number in range(count))
    return [("it", container(loader(headers=headers, programs=b"\x46\x00" * count), [section(16)]))]


def repeats(length: int) -> Fragments:
    """A program that repeats a move to offset 0 and a fixup there as often as one can, and as many headers for it."""
    program = b"\xA0\x00\x00\x00\x46\x00\xB0\xBF\xFF\xFF"
    headers = struct.pack(">HHII", 0, 0, len(program) // 2, 0) * (length // 12)
    return [("it", container(loader(headers=headers, programs=program), [section(16)]))]


def packed_sections(length: int) -> Fragments:
    """Sections with pattern data: in each one instruction gives a byte 512 times."""
    packed = b"\x41\x83\x7F\x55"
    count = min(length // (28 + len(packed)), MOST_SECTIONS)
    headers = [section(512, 512, len(packed), 40 + 28 * (count + 1) + len(packed) * number, 2) for number in range(count)]
    return [("it", container(loader(), headers, packed * count))]


def tags(length: int) -> Fragments:
    """A file in which a container may begin at every eighth byte."""
    return [("it", b"Joy!peff" * (length // 8))]


def tags_in_resources(rows: int) -> Callable[[int], Fragments]:
    """A resource fork in which a container may begin at every eighth byte of its last resource, after so many empty ones."""

    def made(length: int) -> Fragments:
        room = max(0, length - 256 - 38 - 16 * rows) // 8 * 8
        data = bytes(4 * (rows - 1)) + struct.pack(">I", room) + b"Joy!peff" * (room // 8)
        references = b"".join(struct.pack(">hHII", number, 0xFFFF, 4 * number, 0) for number in range(rows))
        types = struct.pack(">H4s2H", 0, b"data", rows - 1, 10) + references
        head = struct.pack(">4I", 256, 256 + len(data), len(data), 28 + len(types))
        return [("it", head + bytes(240) + data + head + struct.pack(">I4H", 0, 0, 0, 28, 28 + len(types)) + types)]

    return made


# --- all of them ---


def in_turn(runs: int) -> Dict[str, Callable]:
    return {"names": lambda count, length: run_starts(count, length, runs), "strings": lambda length: runs_of(length, runs)}


NESTED = {"names": nested, "strings": lambda length: runs_of(length, 1)}

@dataclasses.dataclass(frozen=True)
class Hostile:
    """How the files are made, by their length; what a preparation of the first answers; which commands and calls are left out, since
    their time isn't bounded by the files; and how many seconds more than others these files may take."""

    made: Callable[[int], Fragments]
    answer: int = 0
    leaves_out: Tuple[str, ...] = ()
    more: float = 0


# `load` takes as many steps of programs as they ask for. A report verifies 67,108,864 words of programs, however short the file is. A name
# that is looked up is read whole: 64 KB for each import. If many libraries that are missing have one name of a megabyte, it is compared for
# each.

FILES: Dict[str, Hostile] = {
    "imports of one long name": Hostile(shared_imports(**in_turn(1), present=False)),
    "imports of two long names in turn": Hostile(shared_imports(**in_turn(2), present=False)),
    "imports of 64 long names in turn": Hostile(shared_imports(**in_turn(64), present=False)),
    "imports of 3,000 names in turn": Hostile(shared_imports(**in_turn(3_000), present=False)),
    "imports of names in one another": Hostile(shared_imports(**NESTED, present=False)),
    "imports of one long name that is missing": Hostile(shared_imports(**in_turn(1), present=True)),
    "imports of 64 long names that are missing": Hostile(shared_imports(**in_turn(64), present=True)),
    "imports of names of 64 KB that are missing": Hostile(long_export_names, more=1),
    "libraries of one long name": Hostile(shared_libraries(**in_turn(1)), leaves_out=("pef_missing",)),
    "libraries of 64 long names in turn": Hostile(shared_libraries(**in_turn(64))),
    "libraries of names in one another": Hostile(shared_libraries(**NESTED)),
    "missing libraries": Hostile(missing_libraries),
    "libraries of all imports": Hostile(libraries_of_all),
    "libraries of one import, the last one first": Hostile(libraries_of_one),
    "empty sections": Hostile(empty_sections(lambda number: 4)),
    "empty sections, each with another alignment": Hostile(empty_sections(lambda number: number % 13)),
    "sections of one long name": Hostile(named_sections),
    "exports in one slot": Hostile(one_chain),
    "exports with other keys": Hostile(irregular),
    "a chain of exports": Hostile(reexports(ABSOLUTE)),
    "a ring of exports": Hostile(reexports(REEXPORTED), 65),
    "relocation headers": Hostile(relocation_headers),
    "a program of repeats": Hostile(repeats, 70, ("load",), more=1),
    "sections with pattern data": Hostile(packed_sections),
    "tags": Hostile(tags, 3),
    "tags in a resource after many": Hostile(tags_in_resources(4_090), 2),
}
