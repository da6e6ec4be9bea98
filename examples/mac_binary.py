#!/usr/bin/env python3
"""Wraps containers into a file of the classic Mac OS, as an application has them.

    examples/mac_binary.py OUT NAME=CONTAINER ..

OUT is in MacBinary. Its data fork has the containers, one after the other, and its resource fork the resource `cfrg` 0 with their names.
The first is the application, and the others are its libraries. The formats are written from their descriptions
(docs/FORMATS.md, "Files of the classic Mac OS").
"""
from __future__ import annotations

import binascii
import pathlib
import struct
import sys
from typing import Iterable, List, Tuple

IMPORT_LIBRARY, APPLICATION = 0, 1


def cfrg(rows: Iterable[Tuple[str, int, int, int]]) -> bytes:
    """A `cfrg` resource. Each row is a name, a usage, and an offset and length in the data fork."""
    rows = list(rows)
    members = b""
    for name, usage, offset, length in rows:
        text = name.encode("mac_roman")
        size = (43 + len(text) + 3) // 4 * 4
        head = struct.pack(">4sHBBIIIHBBII", b"pwpc", 0, 0, 0, 0, 0, 0, 0, usage, 1, offset, length)
        tail = struct.pack(">IHHH", 0, 0, 0, size) + bytes([len(text)]) + text
        members += (head + tail).ljust(size, b"\0")
    return struct.pack(">8xHH16xHH", 0, 1, 0, len(rows)) + members


def resource_fork(rows: List[Tuple[str, int, bytes]]) -> bytes:
    """A resource fork of resources without names. Each row is a type, a number and the contents."""
    kinds = sorted({kind for kind, _, _ in rows})
    data, lists, table = b"", b"", struct.pack(">H", len(kinds) - 1)
    for kind in kinds:
        own = [row for row in rows if row[0] == kind]
        table += struct.pack(">4sHH", kind.encode(), len(own) - 1, 2 + 8 * len(kinds) + len(lists))
        for _, number, contents in own:
            lists += struct.pack(">hHII", number, 0xFFFF, len(data), 0)
            data += struct.pack(">I", len(contents)) + contents
    types = table + lists
    header = struct.pack(">4I", 256, 256 + len(data), len(data), 28 + len(types))
    return header.ljust(256, b"\0") + data + header + struct.pack(">4xHHHH", 0, 0, 28, 28 + len(types)) + types


def padded(contents: bytes) -> bytes:
    return contents + bytes(-len(contents) % 128)


def mac_binary(name: str, data: bytes, resources: bytes) -> bytes:
    text = name.encode("mac_roman")
    head = (bytes([0, len(text)]) + text).ljust(65, b"\0") + b"APPL????" + bytes(10)
    head += struct.pack(">II", len(data), len(resources))
    head = head.ljust(122, b"\0") + bytes([129, 129])
    head += struct.pack(">HH", binascii.crc_hqx(head, 0), 0)
    return head + padded(data) + padded(resources)


def application(name: str, containers: Iterable[Tuple[str, bytes]]) -> bytes:
    """A file with an application and its libraries. Each container has the name of its fragment."""
    data, rows = b"", []
    for fragment, contents in containers:
        data += bytes(-len(data) % 16)
        rows.append((fragment, IMPORT_LIBRARY if rows else APPLICATION, len(data), len(contents)))
        data += contents
    return mac_binary(name, data, resource_fork([("cfrg", 0, cfrg(rows))]))


def main(words: List[str]) -> None:
    if len(words) < 2 or not all("=" in it for it in words[1:]):
        sys.exit("usage: mac_binary.py OUT NAME=CONTAINER ..")
    out = pathlib.Path(words[0])
    named = [it.partition("=") for it in words[1:]]
    out.write_bytes(application(out.stem, [(name, pathlib.Path(path).read_bytes()) for name, _, path in named]))


if __name__ == "__main__":
    main(sys.argv[1:])
