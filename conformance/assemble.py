"""Containers from Python values, written from *Mac OS Runtime Architectures* and PEFBinaryFormat.h alone.

It writes what it is given, right or wrong, and tests nothing.
"""
import struct
from dataclasses import dataclass, field
from typing import Dict, List, Optional, Tuple


@dataclass
class Section:
    kind: int = 1
    raw: bytes = b""
    total: Optional[int] = None  # the image, if nothing else is said
    unpacked: Optional[int] = None
    share: int = 1
    align: int = 4
    default: int = 0

    def header(self, offset: int) -> bytes:
        unpacked = len(self.raw) if self.unpacked is None else self.unpacked
        total = unpacked if self.total is None else self.total
        return struct.pack(">iIIIIIBBBB", -1, self.default, total, unpacked, len(self.raw), offset, self.kind, self.share, self.align, 0)


@dataclass
class Library:
    name: bytes
    current: int = 0
    old: int = 0
    options: int = 0  # 0x80: initialized before; 0x40: weak
    imports: List[Tuple[bytes, int]] = field(default_factory=list)  # name and class byte (0x80: weak)


@dataclass
class Loader:
    libraries: List[Library] = field(default_factory=list)
    programs: List[Tuple[int, List[int]]] = field(default_factory=list)  # section and halfwords
    exports: List[Tuple[bytes, int, int, int]] = field(default_factory=list)  # name, class, section, value
    main: Tuple[int, int] = (-1, 0)
    init: Tuple[int, int] = (-1, 0)
    term: Tuple[int, int] = (-1, 0)
    power: Optional[int] = None  # that of the number of exports, if nothing else is said


def hash_word(name: bytes) -> int:
    """The key of a name: its length, and 16 bits of hash (the book's PEFComputeHashWord)."""
    value = 0
    for byte in name:
        value = (value << 1) - (value >> 16) ^ byte
        value = (value + 2**31) % 2**32 - 2**31  # 32 bits with a sign
    return len(name) << 16 | (value ^ value >> 16) & 0xFFFF


def slot(word: int, power: int) -> int:
    return (word ^ word >> power) & (1 << power) - 1


def export_table(exports, names_at: int, power: Optional[int] = None) -> Tuple[int, bytes, bytes]:
    """The power, the slots with keys and exports, and the names of the exports; the names begin at names_at in the strings."""
    if power is None:
        power = next(p for p in range(17) if p == 16 or len(exports) >> p < 10)
    keyed = sorted(exports, key=lambda export: slot(hash_word(export[0]), power))
    first, slots, keys, rows, names = 0, b"", b"", b"", b""
    for number in range(1 << power):
        count = sum(slot(hash_word(export[0]), power) == number for export in keyed)
        slots += struct.pack(">I", count << 18 | first)
        first += count
    for name, kind, section, value in keyed:
        keys += struct.pack(">I", hash_word(name))
        rows += struct.pack(">IIh", kind << 24 | names_at + len(names), value, section)
        names += name
    return power, slots + keys + rows, names


def loader_section(it: Loader) -> Tuple[bytes, Dict[str, int]]:
    """The bytes of a loader section, and where its parts begin."""
    imports = [each for library in it.libraries for each in library.imports]
    strings, at, tables = b"", {}, b""
    first = 0
    for number, library in enumerate(it.libraries):
        at[f"library {number}"] = 56 + len(tables)
        row = (len(strings), library.old, library.current, len(library.imports), first, library.options)
        tables += struct.pack(">IIIIIBxxx", *row)
        strings += library.name + b"\0"
        first += len(library.imports)
    for number, (name, kind) in enumerate(imports):
        at[f"import {number}"] = 56 + len(tables)
        tables += struct.pack(">I", kind << 24 | len(strings))
        strings += name + b"\0"
    instructions = b""
    for number, (section, halfwords) in enumerate(it.programs):
        at[f"relocation {number}"] = 56 + len(tables)
        tables += struct.pack(">HHII", section, 0, len(halfwords), len(instructions))
        instructions += b"".join(struct.pack(">H", halfword) for halfword in halfwords)
    power, table, names = export_table(it.exports, len(strings), it.power)
    strings += names
    at["instructions"] = 56 + len(tables)
    at["strings"] = at["instructions"] + len(instructions)
    strings += b"\0" * (-(at["strings"] + len(strings)) % 4)
    at["exports"] = at["strings"] + len(strings)
    at["keys"] = at["exports"] + (4 << power)
    at["rows"] = at["keys"] + 4 * len(it.exports)
    header = struct.pack(">iIiIiI", *it.main, *it.init, *it.term)
    header += struct.pack(">IIIIIIII", len(it.libraries), len(imports), len(it.programs), at["instructions"], at["strings"], at["exports"], power, len(it.exports))
    return header + tables + instructions + strings + table, at


def container(sections: List[Section], loader: Loader, versions=(0, 0, 0), more: Tuple[Section, ...] = ()) -> Tuple[bytes, Dict[str, int]]:
    """The bytes of a container, and where its parts begin. `versions` are current, old definition, old implementation. The sections
    of `more` aren't instantiated and come after the others; the loader section is the last."""
    tables, inner = loader_section(loader)
    everything = [*sections, *more, Section(kind=4, raw=tables, total=0, unpacked=0, share=4)]
    current, definition, implementation = versions
    head = b"Joy!peffpwpc" + struct.pack(">IIIIIHHI", 1, 0, definition, implementation, current, len(everything), len(sections), 0)
    at = {"header": 0}
    raw, start = b"", len(head) + 28 * len(everything)
    for number, each in enumerate(everything):
        raw += b"\0" * (-(start + len(raw)) % 16)
        at[f"section {number}"] = len(head)
        at[f"raw {number}"] = start + len(raw)
        head += each.header(start + len(raw))
        raw += each.raw
    loader_at = at[f"raw {len(everything) - 1}"]
    at["loader header"] = at[f"section {len(everything) - 1}"]
    at["loader"] = loader_at
    at.update({part: loader_at + offset for part, offset in inner.items()})
    return head + raw, at
