"""Containers of a few sections and relocation headers, each part right after the one before it, so that offsets are easily counted.

The container header has 40 bytes and each section header 28. The raw bytes of the sections follow, and then the loader section: its
header has 56 bytes, a library and an import 28 together, and each relocation header 12. The programs follow.
"""
import dataclasses
import struct


@dataclasses.dataclass(frozen=True)
class Section:
    """A section without a name or a default address: its raw bytes, and the lengths of its memory and of its image."""

    raw: bytes = b""
    total: int = 0
    unpacked: int = 0
    kind: int = 1
    align: int = 4


# A library `it`, which is the fragment itself, with an import `a`, and the export `a`: the number 00000100 (hex). The names are at 0
# and 3 of the strings. The export has one slot and its hash word.
SYMBOL = struct.pack(">7I", 0, 0, 0, 1, 0, 0, 0x01000003)
NAMES = b"it\0a\0"
EXPORT = bytes.fromhex("00040000 00010061 01000003 00000100 FFFE")


def loader(programs, headers, symbol):
    """A loader section. Headers are pairs: which part of the programs each has, from a byte to a byte."""
    tables = SYMBOL if symbol else b""
    for start, end in headers:
        tables += struct.pack(">HHII", 0, 0, (end - start) // 2, start)
    names, export = (NAMES, EXPORT) if symbol else (b"", b"")
    at = 56 + len(tables)
    counts = (1, 1) if symbol else (0, 0)
    head = struct.pack(">iIiIiI", -1, 0, -1, 0, -1, 0)
    head += struct.pack(">8I", *counts, len(headers), at, at + len(programs), at + len(programs) + len(names), 0, int(symbol))
    return head + tables + programs + names + export


def container(sections, programs=(), symbol=False, times=1):
    """A container with these instantiated sections, and for section 0 so many relocation headers for each of these programs."""
    headers, start = [], 0
    for program in programs:
        headers += [(start, start + len(program))] * times
        start += len(program)
    end = loader(b"".join(programs), headers, symbol)
    count = len(sections) + 1
    head = b"Joy!peffpwpc" + struct.pack(">5I2HI", 1, 0, 0, 0, 0, count, len(sections), 0)
    at = len(head) + 28 * count
    for it in sections:
        head += struct.pack(">iIIIIIBBBB", -1, 0, it.total, it.unpacked, len(it.raw), at, it.kind, 1, it.align, 0)
        at += len(it.raw)
    head += struct.pack(">iIIIIIBBBB", -1, 0, 0, 0, len(end), at, 4, 4, 4, 0)
    return head + b"".join(it.raw for it in sections) + end
