"""What the tests of inventory and survey open: archives, disks and an import library, written from the descriptions of their formats.

Each file of an archive is a name, its data fork and its resource fork. Nothing is compressed.
"""
from __future__ import annotations

import binascii
import os
import pathlib
import struct
import subprocess
import sys
import tempfile
import zlib
from typing import Dict, Iterable, List, Tuple

ROOT = pathlib.Path(__file__).resolve().parent.parent.parent
sys.path.append(str(ROOT / "conformance"))

import assemble  # noqa: E402

File = Tuple[bytes, bytes, bytes]
KIND = b"shlb????"
BLOCK = 512
BIN_HEX = b"!\"#$%&'()*+,-012345689@ABCDEFGHIJKLMNPQRSTUVXYZ[`abcdefhijklmpqr"


# --- archives ---


def crc_16(contents: bytes) -> int:
    """The CRC of StuffIt: that of ARC, with the polynomial 8005 (hex), low bit first."""
    value = 0
    for byte in contents:
        value ^= byte
        for _ in range(8):
            value = value >> 1 ^ (0xA001 if value & 1 else 0)
    return value


def stuff_it(files: Iterable[File]) -> bytes:
    rows = []
    for name, data, resources in files:
        head = bytes([0, 0, len(name)]) + name.ljust(63, b"\0") + KIND
        sizes = (len(resources), len(data)) * 2
        head += struct.pack(">HIIIIIIHH6x", 0, 0, 0, *sizes, crc_16(resources), crc_16(data))
        rows.append(head + struct.pack(">H", crc_16(head)) + resources + data)
    body = b"".join(rows)
    return b"SIT!" + struct.pack(">HI", len(rows), 22 + len(body)) + b"rLau\1" + bytes(7) + body


def compact_pro(files: Iterable[File]) -> bytes:
    body, rows, count = b"", b"", 0
    for name, data, resources in files:
        # 81 82 (hex) begins a run, and a zero after it says that it is none.
        forks = [it.replace(b"\x81\x82", b"\x81\x82\0") for it in (resources, data)]
        rows += bytes([len(name)]) + name + struct.pack(">BI", 1, 8 + len(body)) + KIND
        rows += struct.pack(">IIHIH", 0, 0, 0, zlib.crc32(resources + data) ^ 0xFFFFFFFF, 0)
        rows += struct.pack(">IIII", len(resources), len(data), *map(len, forks))
        body += b"".join(forks)
        count += 1
    rows = struct.pack(">HB", count, 0) + rows
    return struct.pack(">BBHI", 1, 1, 0, 8 + len(body)) + body + struct.pack(">I", zlib.crc32(rows) ^ 0xFFFFFFFF) + rows


def bin_hex(file: File) -> bytes:
    name, data, resources = file
    head = bytes([len(name)]) + name + b"\0" + KIND + struct.pack(">HII", 0, len(data), len(resources))
    plain = b"".join(part + struct.pack(">H", binascii.crc_hqx(part, 0)) for part in (head, data, resources))
    # 90 (hex) begins a run, and a zero after it says that it is none.
    plain = plain.replace(b"\x90", b"\x90\0")
    plain += bytes(-len(plain) % 3)
    text = b""
    for at in range(0, len(plain), 3):
        bits = int.from_bytes(plain[at : at + 3], "big")
        text += bytes(BIN_HEX[bits >> shift & 0x3F] for shift in (18, 12, 6, 0))
    lines = [text[at : at + 64] for at in range(0, len(text), 64)]
    return b"(This file must be converted with BinHex 4.0)\r\r:" + b"\r".join(lines) + b":\r"


# --- disks ---


def hfs_disk(files: Dict[bytes, bytes], size: int = 800 * 1024) -> bytes:
    """A disk made by hfsutils, with files in MacBinary by their paths, such as `:Folder:File`."""
    with tempfile.TemporaryDirectory() as room:
        disk, file = pathlib.Path(room, "disk"), pathlib.Path(room, "file")
        environment = {**os.environ, "HOME": room}

        def run(*words: object) -> None:
            subprocess.run(words, env=environment, check=True, capture_output=True)

        disk.write_bytes(bytes(size))
        run("hformat", "-l", "Disk", disk)
        folders = set()
        for path, contents in files.items():
            folder = path.rpartition(b":")[0]
            if folder and folder not in folders:
                run("hmkdir", folder)
                folders.add(folder)
            file.write_bytes(contents)
            run("hcopy", "-m", file, path)
        run("humount")
        return disk.read_bytes()


def partitioned(*volumes: bytes) -> bytes:
    """A disk with a partition for each volume of HFS. Each number is one of blocks."""
    count = 1 + len(volumes)
    rows, at = [(b"Apple_partition_map", 1, count)], 1 + count
    for volume in volumes:
        rows.append((b"Apple_HFS", at, len(volume) // BLOCK))
        at += len(volume) // BLOCK
    head = struct.pack(">2sHI", b"ER", BLOCK, at).ljust(BLOCK, b"\0")
    for kind, start, size in rows:
        row = struct.pack(">2sHIII", b"PM", 0, count, start, size) + b"part".ljust(32, b"\0") + kind.ljust(32, b"\0")
        head += (row + struct.pack(">III", 0, size, 0x33)).ljust(BLOCK, b"\0")
    return head + b"".join(volumes)


def disk_copy(disk: bytes) -> bytes:
    """The disk in a file of Disk Copy 4.2, whose sums are left out."""
    return (b"\x04Disk".ljust(64, b"\0") + struct.pack(">IIII", len(disk), 0, 0, 0) + b"\x01\x22\x01\x00") + disk


# --- containers ---


def import_library(names: List[bytes], power: int, fill: bytes = b"\0") -> bytes:
    """An import library as a linker of 2002 wrote it: for linking only, and never loaded.

    The loader section is the first one, and is said to be instantiated. main, init and term are in it, at 0. Each export is a word of
    the other section, of class data. The power of the export table is the maker's own.
    """
    keyed = sorted(names, key=lambda name: assemble.slot(assemble.hash_word(name), power))
    slots, first = b"", 0
    for number in range(1 << power):
        count = sum(assemble.slot(assemble.hash_word(name), power) == number for name in keyed)
        slots += struct.pack(">I", count << 18 | first)
        first += count
    strings = b"".join(keyed)
    starts = [sum(map(len, keyed[:number])) for number in range(len(keyed))]
    strings += bytes(-len(strings) % 4)
    loader = struct.pack(">iIiIiI", 0, 0, 0, 0, 0, 0) + struct.pack(">IIIIIIII", 0, 0, 0, 0, 56, 56 + len(strings), power, len(keyed)) + strings + slots
    loader += b"".join(struct.pack(">I", assemble.hash_word(name)) for name in keyed)
    loader += b"".join(struct.pack(">IIh", 1 << 24 | start, 4 * number, 1) for number, start in enumerate(starts))
    data = (fill * 4 * len(names))[: 4 * len(names)]
    start = 96 + len(loader) + -len(loader) % 16
    head = b"Joy!peffpwpc" + struct.pack(">IIIIIHHI", 1, 0, 0, 0, 0, 2, 1, 0)
    head += struct.pack(">iIIIIIBBBB", -1, 0, 0, 0, len(loader), 96, 4, 4, 4, 0)
    head += struct.pack(">iIIIIIBBBB", -1, 0, len(data), len(data), len(data), start, 1, 1, 4, 0)
    return (head + loader).ljust(start, b"\0") + data


# --- programs ---


def path_without(folder: pathlib.Path, *programs: str) -> str:
    """A PATH with all programs but some: a folder of links."""
    folder.mkdir()
    for place in map(pathlib.Path, os.environ["PATH"].split(os.pathsep)):
        for it in place.iterdir() if place.is_dir() else ():
            if it.name not in programs and not (folder / it.name).is_symlink():
                (folder / it.name).symlink_to(it)
    return str(folder)
