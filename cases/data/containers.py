"""Containers that were written by hand, byte for byte."""
from suite import from_hex

# The container of the script `VECTORS` of scripts.py: code of 8 bytes and data of 16, a program of one halfword and the export
# `go`. The section headers are at 40, 68 and 96, the section name table at 124, and the loader section, of 90 bytes, at 160.
VECTORS = from_hex("""
    # the container header: version 1, two sections and the loader section
    4A 6F 79 21 70 65 66 66 70 77 70 63 00 00 00 01
    00 00 00 00 00 00 00 00 00 00 00 00 00 00 00 01
    00 03 00 02 00 00 00 00
    # the section headers: code, data, loader
    FF FF FF FF 00 00 00 00 00 00 00 08 00 00 00 08
    00 00 00 08 00 00 00 80 00 04 04 00 FF FF FF FF
    00 00 00 00 00 00 00 10 00 00 00 10 00 00 00 10
    00 00 00 90 01 01 04 00 FF FF FF FF 00 00 00 00
    00 00 00 00 00 00 00 00 00 00 00 5A 00 00 00 A0
    04 04 04 00
    # zeros up to a multiple of 16, and the images
    00 00 00 00 00 11 22 33 44 55 66 77 00 00 00 00
    00 00 00 00 00 00 00 00 00 00 00 00 00 00 00 04
    00 00 00 00
    # the loader header: main in section 1, one program, one export
    00 00 00 01 00 00 00 00 FF FF FF FF 00 00 00 00
    FF FF FF FF 00 00 00 00 00 00 00 00 00 00 00 00
    00 00 00 01 00 00 00 44 00 00 00 46 00 00 00 48
    00 00 00 00 00 00 00 01
    # the program of section 1: a halfword
    00 01 00 00 00 00 00 01 00 00 00 00 46 01
    # the name `go`, a slot, a key and the export
    67 6F 00 04 00 00 00 02 00 A1 02 00 00 00 00 00
    00 00 00 01
""")

# A stub library as the linker of CodeWarrior writes one: section 0, the loader section, of 114 bytes at 96, counts as instantiated, and
# section 1, of 12 bytes at 224, doesn't. The entry points are in section 0, and the exports `open`, `read` and `shut` in section 1.
STUB = from_hex("""
    4A 6F 79 21 70 65 66 66 70 77 70 63 00 00 00 01
    00 00 00 00 00 00 00 00 00 00 00 00 00 00 00 00
    00 02 00 01 00 00 00 00
    # the section headers: loader, data
    FF FF FF FF 00 00 00 00 00 00 00 00 00 00 00 00
    00 00 00 72 00 00 00 60 04 04 04 00 FF FF FF FF
    00 00 00 00 00 00 00 0C 00 00 00 0C 00 00 00 0C
    00 00 00 E0 01 01 04 00
    # the loader header: three exports
    00 00 00 00 00 00 00 00 00 00 00 00 00 00 00 00
    00 00 00 00 00 00 00 00 00 00 00 00 00 00 00 00
    00 00 00 00 00 00 00 00 00 00 00 38 00 00 00 44
    00 00 00 00 00 00 00 03
    # their names, the slot, the keys and the exports
    6F 70 65 6E 72 65 61 64 73 68 75 74 00 0C 00 00
    00 04 02 1C 00 04 02 A2 00 04 02 A6
    01 00 00 00 00 00 00 00 00 01
    01 00 00 04 00 00 00 04 00 01
    01 00 00 08 00 00 00 08 00 01
    # zeros up to a multiple of 16, and section 1
    00 00 00 00 00 00 00 00 00 00 00 00 00 00
    00 00 00 00 00 00 00 00 00 00 00 00
""")

# A container with what `link` doesn't write. It has sections that aren't instantiated; sections with a name, one of them `-`, one
# empty and one with bytes that are escaped; a weak import of a weak library; each kind of relocation instruction; a relocation header
# without instructions; and each kind of export. The header and the section headers end at 208. The names follow, then the raw data
# from 219 and the loader section from 237, with its program at 377.
RICH = from_hex("""
    4A 6F 79 21 70 65 66 66 70 77 70 63 00 00 00 01
    9A 8B 7C 6D 00 00 00 05 00 00 00 06 00 00 00 07
    00 06 00 03 00 00 00 00 00 00 00 00 00 00 00 00
    00 00 00 10 00 00 00 10 00 00 00 10 00 00 00 DB
    00 04 04 00 00 00 00 02 10 00 20 00 00 00 00 40
    00 00 00 00 00 00 00 00 00 00 00 00 01 01 02 00
    00 00 00 03 00 00 00 00 00 00 00 10 00 00 00 08
    00 00 00 02 00 00 00 EB 02 01 03 00 FF FF FF FF
    00 00 00 00 00 00 00 00 00 00 00 00 00 00 01 06
    00 00 00 ED 04 04 04 00 FF FF FF FF FF FF FF FF
    00 00 00 00 00 00 00 09 00 00 00 03 00 00 00 DB
    05 FF 28 00 7F FF FF FF 00 00 00 00 00 00 00 01
    00 00 00 02 00 00 00 00 00 00 00 00 08 00 00 00
    2D 00 00 64 61 74 61 20 25 E9 00 00 01 02 03 04
    05 06 07 08 09 0A 0B 0C 0D 0E 0F 48 01 00 00 00
    00 00 00 00 04 00 00 00 01 00 00 00 08 00 00 00
    02 00 00 00 0C 00 00 00 02 00 00 00 03 00 00 00
    02 00 00 00 8C 00 00 00 C0 00 00 00 D8 00 00 00
    00 00 00 00 03 00 00 00 00 00 00 00 02 00 00 00
    03 00 00 00 02 00 00 00 00 00 00 00 00 00 00 00
    06 00 00 00 01 00 00 00 01 00 00 00 01 00 00 00
    02 C0 00 00 00 02 00 00 0A 81 00 00 0C 84 00 00
    0E 00 01 00 00 00 00 00 1A 00 00 00 00 00 00 00
    00 00 00 00 00 00 00 00 34 00 41 40 01 42 02 44
    03 46 01 48 05 4A 06 61 FF 62 02 64 01 66 00 8F
    FF 90 01 A0 00 00 04 A4 00 02 58 B4 40 00 02 B4
    80 00 01 B4 00 00 03 40 00 B0 00 00 03 54 6F 6F
    6C 73 00 41 20 62 00 66 00 76 00 77 20 78 00 67
    6F 61 62 73 75 00 0C 00 00 00 02 00 A1 00 03 01
    33 00 01 00 75 02 00 00 12 00 00 00 10 00 01 00
    00 00 14 DE AD BE EF FF FE 01 00 00 17 00 00 00
    02 FF FD
""")

# A library with one section of 16 bytes, whose first ten are raw, and with a program of six halfwords: a move to offset 4, an addition
# of section 0, a move to 12, and another addition. The section's header begins at 40, that of the loader section at 68, the raw bytes
# at 96 and the program at 180.
SPELLED = from_hex("""
    4A 6F 79 21 70 65 66 66 70 77 70 63 00 00 00 01
    00 00 00 00 00 00 00 00 00 00 00 00 00 00 00 00
    00 02 00 01 00 00 00 00 FF FF FF FF 00 00 00 00
    00 00 00 10 00 00 00 0A 00 00 00 0A 00 00 00 60
    01 01 04 00 FF FF FF FF 00 00 00 00 00 00 00 00
    00 00 00 00 00 00 00 54 00 00 00 70 04 04 04 00
    20 FF FF FF FF 7F 01 02 03 04 00 00 00 00 00 00
    FF FF FF FF 00 00 00 00 FF FF FF FF 00 00 00 00
    FF FF FF FF 00 00 00 00 00 00 00 00 00 00 00 00
    00 00 00 01 00 00 00 44 00 00 00 50 00 00 00 50
    00 00 00 00 00 00 00 00 00 00 00 00 00 00 00 06
    00 00 00 00 A0 00 00 04 66 00 A0 00 00 0C 66 00
    00 00 00 00
""")

# A library with the same section, and with two relocation headers for it. The first has a move to offset 4 and an addition of section
# 0, the second two such additions. The programs begin at 192 and 198.
TWICE = from_hex("""
    4A 6F 79 21 70 65 66 66 70 77 70 63 00 00 00 01
    00 00 00 00 00 00 00 00 00 00 00 00 00 00 00 00
    00 02 00 01 00 00 00 00 FF FF FF FF 00 00 00 00
    00 00 00 10 00 00 00 0A 00 00 00 0A 00 00 00 60
    01 01 04 00 FF FF FF FF 00 00 00 00 00 00 00 00
    00 00 00 00 00 00 00 60 00 00 00 70 04 04 04 00
    20 FF FF FF FF 7F 01 02 03 04 00 00 00 00 00 00
    FF FF FF FF 00 00 00 00 FF FF FF FF 00 00 00 00
    FF FF FF FF 00 00 00 00 00 00 00 00 00 00 00 00
    00 00 00 02 00 00 00 50 00 00 00 5A 00 00 00 5C
    00 00 00 00 00 00 00 00 00 00 00 00 00 00 00 03
    00 00 00 00 00 00 00 00 00 00 00 02 00 00 00 06
    A0 00 00 04 66 00 66 00 66 00 00 00 00 00 00 00
""")

# The container of an empty script.
EMPTY = from_hex("""
    4A 6F 79 21 70 65 66 66 70 77 70 63 00 00 00 01
    00 00 00 00 00 00 00 00 00 00 00 00 00 00 00 00
    00 01 00 00 00 00 00 00 FF FF FF FF 00 00 00 00
    00 00 00 00 00 00 00 00 00 00 00 3C 00 00 00 50
    04 04 04 00 00 00 00 00 00 00 00 00 00 00 00 00
    FF FF FF FF 00 00 00 00 FF FF FF FF 00 00 00 00
    FF FF FF FF 00 00 00 00 00 00 00 00 00 00 00 00
    00 00 00 00 00 00 00 38 00 00 00 38 00 00 00 38
    00 00 00 00 00 00 00 00 00 00 00 00
""")

# The container of the script `EXAMPLE` of scripts.py, with one of its programs of three halfwords, which begins at 180.
EXAMPLE = from_hex("""
    4A 6F 79 21 70 65 66 66 70 77 70 63 00 00 00 01
    00 00 00 00 00 00 00 00 00 00 00 00 00 00 00 00
    00 02 00 01 00 00 00 00 FF FF FF FF 00 00 00 00
    00 00 00 10 00 00 00 0A 00 00 00 0A 00 00 00 60
    01 01 04 00 FF FF FF FF 00 00 00 00 00 00 00 00
    00 00 00 00 00 00 00 50 00 00 00 70 04 04 04 00
    11 22 33 44 00 00 00 08 01 02 00 00 00 00 00 00
    FF FF FF FF 00 00 00 00 FF FF FF FF 00 00 00 00
    FF FF FF FF 00 00 00 00 00 00 00 00 00 00 00 00
    00 00 00 01 00 00 00 44 00 00 00 4A 00 00 00 4C
    00 00 00 00 00 00 00 00 00 00 00 00 00 00 00 03
    00 00 00 00 64 00 00 41 00 41 00 00 00 00 00 00
""")
