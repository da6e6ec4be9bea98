"""Makes damaged copies of files, for all tests that want some. It is imported, and changes nothing by itself.

    at_random(chance, contents)    one random change: of a bit, a byte or a number, a cut, bytes from elsewhere, or new bytes
    several(chance, contents)      one to four such changes
    at_each_byte(contents)         the file cut, and changed in one byte, at each place in turn

Changes at places that somebody chose are in cases/suite.py (`changed`) and conformance/inspect/damaged.py.
"""
from __future__ import annotations

import random
from typing import Iterable, Iterator

#: Numbers that a damaged field may well have. The length of the file and its neighbours are added.
NUMBERS = [0, 1, 2, 3, 4, 7, 8, 15, 16, 31, 32, 0x7FFF, 0x8000, 0xFFFF, 0x10000, 0xFFFFFF, 0x1000000, 0x7FFFFFFF, 0x80000000, 0xFFFFFFFC,
           0xFFFFFFFD, 0xFFFFFFFE, 0xFFFFFFFF]  # fmt: skip


def at_random(chance: random.Random, contents: bytes) -> bytes:
    """The bytes with one random change."""
    edited = bytearray(contents)
    last = len(edited)
    if last == 0:
        return bytes(edited)
    # Most changes are where headers and tables are.
    at = chance.randrange(min(last, 400)) if chance.random() < 0.7 else chance.randrange(last)
    kind = chance.randrange(8)
    if kind == 0:
        edited[at] ^= 1 << chance.randrange(8)
    elif kind == 1:
        edited[at] = chance.randrange(256)
    elif kind in (2, 3):
        at &= ~3
        number = chance.choice([*NUMBERS, last - 1, last, last + 1, chance.randrange(last + 1)])
        edited[at : at + 4] = (number & 0xFFFFFFFF).to_bytes(4, "big")
    elif kind == 4:
        at &= ~1
        edited[at : at + 2] = (chance.choice(NUMBERS) & 0xFFFF).to_bytes(2, "big")
    elif kind == 5:
        del edited[chance.randrange(last) :]
    elif kind == 6:
        size, source = chance.randrange(1, 33), chance.randrange(last)
        edited[at : at + size] = edited[source : source + size]
    else:
        edited[at:at] = bytes(chance.randrange(256) for _ in range(chance.randrange(1, 9)))
    return bytes(edited)


def several(chance: random.Random, contents: bytes) -> bytes:
    """The bytes with one to four random changes."""
    for _ in range(chance.randrange(1, 5)):
        contents = at_random(chance, contents)
    return contents


def at_each_byte(contents: bytes, turns: Iterable[int] = (0x01, 0x80, 0xFF), step: int = 1) -> Iterator[bytes]:
    """The bytes cut, and changed in one byte, at each place in turn."""
    for at in range(0, len(contents), step):
        yield contents[:at]
        for turn in turns:
            yield contents[:at] + bytes([contents[at] ^ turn]) + contents[at + 1 :]
