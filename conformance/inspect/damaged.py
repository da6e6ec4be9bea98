"""Damaged containers, and what `pef inspect` says of each: the table of conformance/inspect/run.

The whole container is written down here byte by byte, each damage at its offset, and each line with the number, the part and the
offset that docs/FORMATS.md and docs/ERRORS.md give. Nothing of the project is used.
"""
import binascii
import struct
from dataclasses import dataclass
from typing import List, Tuple

WHOLE_TEXT = """
000 4A6F7921 70656666 70777063 00000001  Joy! peff pwpc, formatVersion 1
010 00000000 00000002 00000001 00000003  date, oldDefVersion 2, oldImpVersion 1, currentVersion 3
020 0005 0003 00000000                   five sections, three of them instantiated
028 00000000 00000000 00000010 00000010  section 0 `code`: totalSize 16, unpackedSize 16,
038 00000010 000000C0 00 04 04 00        packedSize 16 at C0, code
044 FFFFFFFF 00000000 00000018 00000010  section 1: an image of 16 bytes in a memory of 24,
054 0000000A 000000D0 02 01 04 00        10 packed bytes at D0, pattern
060 00000005 00000000 00000020 00000020  section 2 `data`: 32 bytes,
070 00000020 000000E0 01 01 04 00        at E0
07C FFFFFFFF 00000000 00000000 00000000  section 3, the loader section:
08C 000000E2 00000100 04 04 04 00        226 bytes at 100
098 FFFFFFFF 00000000 00000000 00000000  section 4, a traceback section:
0A8 00000008 000001E4 08 04 02 00        8 bytes at 1E4
0B4 636F6465 00 64617461 00 0000         the names `code` and `data`
0C0 4E800020 4E800020 4E800020 4E800020  section 0
0D0 28 01020304 05060708 08              section 1: a block of 8 bytes, and 8 zeros
0DA 000000000000
0E0 00000001 00000002 00000003 00000004  section 2
0F0 00000005 00000006 00000007 00000008
100 00000002 00000000 00000000 00000004  the loader header: main in section 2 at 0, init in section 0 at 4,
110 00000000 00000008 00000002 00000003  term in section 0 at 8, two libraries, three imports,
120 00000002 0000008C 0000009C 000000B4  two programs; instructions at 18C, strings at 19C, slots at 1B4,
130 00000000 00000003                    power 0, three exports
138 00000000 00000004 00000005 00000002  library 0: `First`, oldImpVersion 4, currentVersion 5, two imports
148 00000000 00 000000                   from 0
150 00000006 00000001 00000001 00000001  library 1: `Second`, one import
160 00000002 40 000000                   from 2, weak
168 0200000D 8100000F 00000011           the imports `a`, `b` (weak) and `c`
174 0002 0000 00000007 00000000          program 0: section 2, seven halfwords
180 0001 0000 00000001 0000000E          program 1: section 1, one halfword, after 14 bytes
18C 4000 4A02 6601 8003 A000 001C 4200   words 0 (section 0), 4 to 12 (imports), 16 (section 1), 28 (section 1)
19A 4001                                 words 0 and 4 of section 1
19C 46697273 7400 5365636F 6E6400        First, Second
1A9 6100 6200 6300 676F 6B 70 00         a, b, c, and the exports go, k, p
1B4 000C0000                             slot 0: three keys
1B8 000200A1 0001006B 00010070           the hash words of go, k, p
1C4 02000013 00000000 0002               go: section 2 at 0
1CE 01000015 0000004D FFFE               k: the number 77
1D8 01000016 00000001 FFFD               p: import 1, passed on
1E2 0000
1E4 54524143 4542 4B21                   section 4
"""


def bytes_of(text: str) -> bytes:
    """The bytes of a dump. Each line begins with its offset, and the words of hex digits end at a double space."""
    dumped = b""
    for line in text.strip().splitlines():
        at, _, rest = line.partition(" ")
        assert int(at, 16) == len(dumped), line
        dumped += bytes.fromhex(rest.split("  ")[0])
    return dumped


WHOLE = bytes_of(WHOLE_TEXT)
assert len(WHOLE) == 0x1EC


# A stub library as the linker of CodeWarrior writes one: the loader section comes first and counts as instantiated, the entry points
# are in section 0, and the names of the exports follow each other without zeros.
STUB = bytes_of("""
000 4A6F7921 70656666 70777063 00000001  Joy! peff pwpc, formatVersion 1
010 00000000 00000000 00000000 00000000
020 0002 0001 00000000                   two sections, one of them instantiated
028 FFFFFFFF 00000000 00000000 00000000  section 0, the loader section:
038 00000072 00000060 04 04 04 00        114 bytes at 60
044 FFFFFFFF 00000000 0000000C 0000000C  section 1: 12 bytes
054 0000000C 000000E0 01 01 04 00        at E0
060 00000000 00000000 00000000 00000000  the loader header: main and init in section 0 at 0,
070 00000000 00000000 00000000 00000000  term too, no libraries, no imports,
080 00000000 00000000 00000038 00000044  no programs; strings at 98, the slot at A4,
090 00000000 00000003                    power 0, three exports
098 6F70656E 72656164 73687574           open, read, shut
0A4 000C0000                             slot 0: three keys
0A8 0004021C 000402A2 000402A6           the hash words of open, read, shut
0B4 01000000 00000000 0001               open: section 1 at 0
0BE 01000004 00000004 0001               read: section 1 at 4
0C8 01000008 00000008 0001               shut: section 1 at 8
0D2 0000000000000000000000000000
0E0 000000000000000000000000             section 1
""")
assert len(STUB) == 0xEC


@dataclass
class Case:
    name: str
    contents: bytes
    lines: List[str]  # the lines of errors and notes, in the order of the rows that they are of
    offsets: Tuple[int, ...] = (0,)  # where the containers begin
    format: str = "container"
    seconds: int = 10  # how long it may take


CASES: List[Case] = []


def changed(contents: bytes, changes: str) -> bytes:
    """The bytes with changes: `3C FFFFFFFF, 42 20` writes four bytes at 3C and one at 42."""
    edited = bytearray(contents)
    for change in filter(None, changes.split(",")):
        at, _, written = change.strip().partition(" ")
        value = bytes.fromhex(written)
        assert int(at, 16) + len(value) <= len(edited), change
        edited[int(at, 16) : int(at, 16) + len(value)] = value
    return bytes(edited)


def case(name: str, changes: str, lines: str, cut: int = len(WHOLE), after: bytes = b"") -> None:
    """A case of the whole container with changes. It is cut to some bytes first, and others follow."""
    CASES.append(Case(name, changed(WHOLE[:cut], changes) + after, lines.strip().splitlines()))


def container_header() -> None:
    case("sound", "", "")
    case("any-date", "10 FFFFFFFF", "")
    case("m68k", "08 6D36386B", "error 3 BadArchitecture container architecture at 00000008")
    case("format-version-2", "0C 00000002", "error 4 BadFormatVersion container formatVersion at 0000000C")
    case("architecture-and-version", "08 70777064 FFFFFFFF", """
error 3 BadArchitecture container architecture at 00000008
error 4 BadFormatVersion container formatVersion at 0000000C""")
    # All five sections are instantiated, also the loader section, so the rows may name any of the five.
    case("six-instantiated-of-five", "22 0006", """
error 5 BadSectionCounts container instSectionCount at 00000022
error 10 NoLoader container at 00000000
note 116 SectionsOutOfOrder container instSectionCount at 00000022 sections 3
error 7 BadSectionKind section 3 sectionKind at 00000094
error 7 BadSectionKind section 4 sectionKind at 000000B0""")
    case("loader-is-instantiated", "22 0004", """
error 10 NoLoader container at 00000000
note 116 SectionsOutOfOrder container instSectionCount at 00000022 sections 3
error 7 BadSectionKind section 3 sectionKind at 00000094""")
    case("versions-below-the-oldest", "14 00000004 00000009", """
note 104 VersionBelowOldest container oldDefVersion at 00000014
note 104 VersionBelowOldest container oldImpVersion at 00000018""")
    case("versions-equal-to-the-oldest", "14 00000003 00000003", "")
    case("header-reserved", "24 00000001", "note 101 ReservedNotZero container reservedA at 00000024")


def sections() -> None:
    # The bytes of section 0, from BE to D0, belong to no part.
    case("section-past-2^32", "3C FFFFFFFF", """
note 113 UnownedBytes container at 000000BE length 18
error 6 SectionOutside section 0 containerOffset at 0000003C""")
    # Section 2 has the loader section's 226 bytes and the last section's 8, too.
    case("section-too-long", "70 00001000", """
error 6 SectionOutside section 2 containerOffset at 00000074
note 112 Overlap section 3 containerOffset at 00000090 length 226
note 112 Overlap section 4 containerOffset at 000000AC length 8""")
    case("empty-section-anywhere", "A8 00000000 FFFFFFFF", "note 109 TrailingBytes container at 000001E2 length 10")
    case("debug-section-instantiated", "5C 05", """
error 7 BadSectionKind section 1 sectionKind at 0000005C
error 8 BadSizes section 1 unpackedSize at 00000050""")
    case("image-longer-than-memory", "6C 00000021", "error 8 BadSizes section 2 unpackedSize at 0000006C")
    case("packed-image-longer-than-memory", "4C 0000000F", "error 8 BadSizes section 1 unpackedSize at 00000050")
    case("raw-bytes-shorter-than-image", "70 0000001F", """
note 113 UnownedBytes container at 000000FF length 1
error 8 BadSizes section 2 unpackedSize at 0000006C""")
    case("alignment-32", "42 20", "error 9 BadAlignment section 0 alignment at 00000042")
    case("alignment-31", "42 1F", "")
    # The 16 bytes between sections 0 and 2 belong to no part.
    case("all-of-a-section", "58 FFFFFFF0 09 01 28 00", """
note 113 UnownedBytes container at 000000D0 length 16
error 6 SectionOutside section 1 containerOffset at 00000058
error 7 BadSectionKind section 1 sectionKind at 0000005C
error 8 BadSizes section 1 unpackedSize at 00000050
error 9 BadAlignment section 1 alignment at 0000005E
note 102 UnknownKind section 1 sectionKind at 0000005C""")
    case("no-loader-section", "94 05", "error 10 NoLoader container at 00000000")
    case("no-loader-and-bad-packed-data", "94 05, D9 A0", """
error 10 NoLoader container at 00000000
error 22 BadOpcode section 1 packed 9 at 000000D9""")
    case("unknown-kind", "B0 4D", "note 102 UnknownKind section 4 sectionKind at 000000B0")
    case("unknown-share", "79 02, B1 4D", "note 103 UnknownShare section 2 shareKind at 00000079")
    # 138 (hex) bytes follow the section headers. Sections 1 and 3 have no name.
    case("name-offset-at-the-end", "44 00000138", "note 121 NameOutside section 1 nameOffset at 00000044")
    case("name-offset-past-the-end", "44 7FFFFFFF", "note 121 NameOutside section 1 nameOffset at 00000044")
    case("name-offset-below-minus-one", "7C FFFFFFFE", "note 121 NameOutside section 3 nameOffset at 0000007C")
    case("section-reserved", "43 01, B3 FF", """
note 101 ReservedNotZero section 0 reservedA at 00000043
note 101 ReservedNotZero section 4 reservedA at 000000B3""")
    # C8 to E8: the last 8 bytes of section 0, and all 10 of section 1. Nothing has E8 to 100.
    case("three-sections-overlap", "74 000000C8", """
note 113 UnownedBytes container at 000000E8 length 24
note 112 Overlap section 1 containerOffset at 00000058 length 10
note 112 Overlap section 2 containerOffset at 00000074 length 8""")
    case("section-at-the-beginning", "3C 00000000", """
note 113 UnownedBytes container at 000000BE length 18
note 112 Overlap section 0 containerOffset at 0000003C length 16""")
    case("section-in-the-headers", "3C 00000004", """
note 113 UnownedBytes container at 000000BE length 18
note 112 Overlap section 0 containerOffset at 0000003C length 16""")
    case("bytes-between-parts", "DB 01", "note 113 UnownedBytes container at 000000DA length 6")
    case("bytes-after-the-end", "", "note 109 TrailingBytes container at 000001EC length 5", after=b"extra")
    case("zeros-after-the-end", "", "note 109 TrailingBytes container at 000001EC length 1", after=b"\0")


def order_of_sections() -> None:
    def stub(name: str, changes: str, lines: str, cut: int = len(STUB)) -> None:
        CASES.append(Case(name, changed(STUB[:cut], changes), lines.strip().splitlines()))

    first = """
error 10 NoLoader container at 00000000
note 116 SectionsOutOfOrder container instSectionCount at 00000022 sections 1
error 7 BadSectionKind section 0 sectionKind at 00000040
"""
    stub("stub-library", "", first)
    # Section 1 is there and isn't instantiated, and there is no section 2.
    stub("stub-entries", "60 00000001, 68 00000002, 70 FFFFFFFE", first + """
error 16 BadEntry init initSection at 00000068
error 16 BadEntry term termSection at 00000070""".lstrip())
    # Section 0, which counts as instantiated, has no bytes in memory, and the value of export 1 is 4.
    stub("stub-exports", "BC 0002, C6 0000, D0 FFFF", first + """
error 20 BadExportSection export 0 sectionIndex at 000000BC
note 106 ExportOutside export 1 symbolValue at 000000C2
error 20 BadExportSection export 2 sectionIndex at 000000D0""".lstrip())
    stub("stub-export-of-a-missing-import", "C6 FFFD", first + "error 20 BadExportSection export 1 sectionIndex at 000000C6")
    # The first of two loader sections, or the one that isn't instantiated.
    stub("two-loader-sections-instantiated", "22 0002, 5C 04", """
error 10 NoLoader container at 00000000
note 116 SectionsOutOfOrder container instSectionCount at 00000022 sections 0
error 7 BadSectionKind section 0 sectionKind at 00000040
error 7 BadSectionKind section 1 sectionKind at 0000005C""")
    stub("loader-section-behind-another", "5C 04", """
error 7 BadSectionKind section 0 sectionKind at 00000040
error 11 LoaderShort loader mainSection at 000000E0""")
    stub("stub-cut-in-the-loader-header", "", """
error 10 NoLoader container at 00000000
note 116 SectionsOutOfOrder container instSectionCount at 00000022 sections 1
error 6 SectionOutside section 0 containerOffset at 0000003C
error 7 BadSectionKind section 0 sectionKind at 00000040
error 6 SectionOutside section 1 containerOffset at 00000058
error 11 LoaderShort loader mainSection at 00000060""", cut=0x88)
    # Section 4 is there and isn't instantiated, and there is no section 5.
    instantiated = """
error 10 NoLoader container at 00000000
note 116 SectionsOutOfOrder container instSectionCount at 00000022 sections 3
error 7 BadSectionKind section 3 sectionKind at 00000094
"""
    case("loader-instantiated-and-section-4-relocated", "22 0004, 174 0004", instantiated)
    case("loader-instantiated-and-section-5-relocated", "22 0004, 174 0005", instantiated + "error 17 BadRelocSection reloc 0 sectionIndex at 00000174")


def importing(*words: int) -> bytes:
    """A container without sections but the loader section, with one library of the name `n`, and imports of these words."""
    start = 56 + 24 + 4 * len(words)
    tables = struct.pack(">iIiIiIIIIIIIII", -1, 0, -1, 0, -1, 0, 1, len(words), 0, start, start, start + 2, 0, 0)
    tables += struct.pack(">IIIIIBxxx", 0, 0, 0, len(words), 0, 0) + struct.pack(f">{len(words)}I", *words)
    head = b"Joy!peffpwpc" + struct.pack(">IIIIIHHI", 1, 0, 0, 0, 0, 1, 0, 0)
    own = struct.pack(">iIIIIIBBBB", -1, 0, 0, 0, start + 2, 68, 4, 4, 4, 0)
    return head + own + tables + b"n\0"


def zero_rows() -> None:
    # The imports are from 94 on. Three of them are passed over.
    other = 0x02000000
    CASES.append(Case("three-zero-imports", importing(other, 0, 0, 0, other, 0, 0, 0), []))
    CASES.append(Case("four-zero-imports", importing(other, 0, 0, 0, 0, other), [
        "note 125 ZeroRows import 1 classAndName at 00000098 length 16"]))
    CASES.append(Case("zero-imports-twice", importing(0, 0, 0, 0, other, 0, 0, 0, 0, 0), [
        "note 125 ZeroRows import 0 classAndName at 00000094 length 16",
        "note 125 ZeroRows import 5 classAndName at 000000A8 length 20"]))
    # The libraries are from 7C on, and each has 24 bytes.
    libraries = named_container([b"a", b"b", b"c", b"d"])
    CASES.append(Case("one-zero-library", changed(libraries, "94" + " 00000000" * 6), []))
    CASES.append(Case("two-zero-libraries", changed(libraries, "94" + " 00000000" * 12), [
        "note 125 ZeroRows library 1 nameOffset at 00000094 length 48"]))
    # The first instruction is at 18C then, and no program has it. `k` and `p` are at 1B1.
    case("zero-relocation-headers", "174" + " 00000000" * 6, """
note 113 UnownedBytes loader at 0000018C length 16
note 125 ZeroRows reloc 0 sectionIndex at 00000174 length 24""")
    case("zero-exports", "1CE" + " 00000000" * 5, """
note 108 IrregularExports loader exportHashOffset at 0000012C
note 113 UnownedBytes loader at 000001B1 length 3
note 125 ZeroRows export 1 classAndName at 000001CE length 20""")


def holding(data: bytes, name: int = -1, entry: int = -1) -> bytes:
    """A container of a data section with these bytes, from 6C on, and of the loader section. Both have a name at this offset, and all
    entry points are in this section."""
    head = b"Joy!peffpwpc" + struct.pack(">IIIIIHHI", 1, 0, 0, 0, 0, 2, 1, 0)
    one = struct.pack(">iIIIIIBBBB", name, 0, len(data), len(data), len(data), 0x6C, 1, 1, 4, 0)
    own = struct.pack(">iIIIIIBBBB", name, 0, 0, 0, 56, 0x6C + len(data), 4, 4, 4, 0)
    return head + one + own + bytes(12) + data + struct.pack(">iIiIiIIIIIIIII", entry, 0, entry, 0, entry, 0, 0, 0, 0, 56, 56, 56, 0, 0)


def text_damage() -> None:
    note = "note 124 TextDamage container at 00000000 length {}"
    for name, data, count in (
        ("32-returns", b"\0\r" * 32, 32),
        ("31-returns", b"\0\r" * 31 + b"\0\0", 0),
        ("returns-and-a-feed", b"\0\r" * 32 + b"\0\n" + bytes(14), 0),
        ("returns-of-mac-text", b"A\r" * 64, 0),
        ("returns-with-some-of-mac-text", b"\0\r" * 32 + b"A\r" * 32, 64),
        ("32-feeds", b"\0\n" * 32, 32),
        ("feeds-and-a-return", b"\0\n" * 32 + b"\0\r" + bytes(14), 0),
        ("32-pairs", b"\0\r\n\0" * 32, 32),
        ("31-pairs", b"\0\r\n\0" * 31 + bytes(4), 0),
        ("pairs-and-returns", b"\0\r\n\0" * 32 + b"\0\r" * 8, 32),
        ("pairs-and-feeds", b"\0\r\n\0" * 32 + b"\0\n" * 8, 32),
        ("pairs-returns-and-feeds", b"\0\r\n\0" * 32 + b"\0\r\0\n" * 4, 0),
        ("pairs-of-text", b"ab\r\n" * 32, 0),
    ):
        CASES.append(Case(f"text-{name}", holding(data), [note.format(count)] if count else []))
    # The names and the entry points of this one are FFFFFFFF, before each byte loses its highest bit. It has 4A4 bytes.
    seven_bits = bytes(byte & 0x7F for byte in holding(bytes(0x400)))
    CASES.append(Case("text-of-seven-bits", seven_bits, f"""
{note.format(0x4A4)}
note 121 NameOutside section 0 nameOffset at 00000028
note 121 NameOutside section 1 nameOffset at 00000044
error 16 BadEntry main mainSection at 0000046C
error 16 BadEntry init initSection at 00000474
error 16 BadEntry term termSection at 0000047C""".strip().splitlines()))
    # The headers of these have no byte above 7F.
    CASES.append(Case("text-of-932-bytes", holding(bytes(0x300), 0, 0), []))
    CASES.append(Case("text-of-1188-bytes", holding(bytes(0x400), 0, 0), [note.format(0x4A4)]))
    for name, data, count in (
        ("32-characters", "\u00E9".encode() * 30 + "\u2026\uF8FF".encode(), 32),
        ("31-characters", "\u00E9".encode() * 31, 0),
        ("characters-and-a-byte", "\u00E9".encode() * 32 + b"\x8E", 0),
        ("characters-and-half-of-one", "\u00E9".encode() * 32 + b"\xE2\x80", 0),
    ):
        CASES.append(Case(f"text-{name}", holding(data + bytes(0x100 - len(data)), 0, 0), [note.format(count)] if count else []))


def loader() -> None:
    # The rest of the loader section, and 2 zeros after it, belong to no part.
    case("loader-of-55-bytes", "8C 00000037", """
note 113 UnownedBytes container at 00000137 length 173
error 11 LoaderShort loader mainSection at 00000100""")
    # Nothing has 100 to 1E4 then.
    case("loader-past-the-end", "90 00001000", """
note 113 UnownedBytes container at 00000100 length 228
error 6 SectionOutside section 3 containerOffset at 00000090
error 11 LoaderShort section 3 containerOffset at 00000090""")
    # What follows the import table isn't its relocation headers, and is read as such. Rows 2 to 8 are instructions, names, keys
    # and exports; the two bytes after the first two are 0 in row 7 alone.
    case("relocation-headers-past-the-end", "120 FFFFFFFF", """
error 12 BadTableOffset loader importedLibraryCount at 00000118
note 101 ReservedNotZero reloc 2 reservedA at 0000018E
note 101 ReservedNotZero reloc 3 reservedA at 0000019A
note 101 ReservedNotZero reloc 4 reservedA at 000001A6
note 101 ReservedNotZero reloc 5 reservedA at 000001B2
note 101 ReservedNotZero reloc 6 reservedA at 000001BE
note 101 ReservedNotZero reloc 8 reservedA at 000001D6""")
    # The same of the libraries: rows 2 to 6 are imports, relocation headers, instructions, names and exports.
    case("libraries-past-the-end", "118 FFFFFFFF", """
error 12 BadTableOffset loader importedLibraryCount at 00000118
note 104 VersionBelowOldest library 2 oldImpVersion at 0000016C
note 101 ReservedNotZero library 3 reservedA at 00000195
note 101 ReservedNotZero library 4 reservedA at 000001AD
note 104 VersionBelowOldest library 5 oldImpVersion at 000001B4
note 101 ReservedNotZero library 5 reservedA at 000001C5
note 101 ReservedNotZero library 6 reservedA at 000001DD""")
    # Library 2 is the import table and the first 12 bytes after it. So imports begin at 180, and relocation headers at 18C.
    case("one-library-too-many", "118 00000003", """
error 13 BadName library 2 nameOffset at 00000168
error 14 BadLibraryRange library 2 firstImportedSymbol at 00000178
note 104 VersionBelowOldest library 2 oldImpVersion at 0000016C
error 13 BadName import 0 classAndName at 00000180
error 17 BadRelocSection reloc 0 sectionIndex at 0000018C
error 18 RelocOutside reloc 0 relocCount at 00000190
note 101 ReservedNotZero reloc 0 reservedA at 0000018E
error 17 BadRelocSection reloc 1 sectionIndex at 00000198
error 18 RelocOutside reloc 1 relocCount at 0000019C
note 101 ReservedNotZero reloc 1 reservedA at 0000019A""")
    case("library-name-outside", "138 7FFFFFFF", "error 13 BadName library 0 nameOffset at 00000138")
    case("import-name-outside", "16D FFFFFF", "error 13 BadName import 1 classAndName at 0000016C")
    # The strings are from 19C to the slots at 1B4.
    case("strings-outside", "128 FFFFFFFF", """
note 108 IrregularExports loader exportHashOffset at 0000012C
note 113 UnownedBytes loader at 0000019C length 24
error 13 BadName library 0 nameOffset at 00000138
error 13 BadName library 1 nameOffset at 00000150
error 13 BadName import 0 classAndName at 00000168
error 13 BadName import 1 classAndName at 0000016C
error 13 BadName import 2 classAndName at 00000170
error 13 BadName export 0 classAndName at 000001C4
error 13 BadName export 1 classAndName at 000001CE
error 13 BadName export 2 classAndName at 000001D8""")
    case("export-name-outside", "1B8 FFFF", """
note 108 IrregularExports loader exportHashOffset at 0000012C
error 13 BadName export 0 classAndName at 000001C4""")
    case("library-range-outside", "15C 00000002", "error 14 BadLibraryRange library 1 firstImportedSymbol at 00000160")
    case("library-range-past-2^32", "160 FFFFFFFF", """
error 14 BadLibraryRange library 1 firstImportedSymbol at 00000160
error 15 OrphanImport import 2 classAndName at 00000170""")
    case("orphan-import", "144 00000001", "error 15 OrphanImport import 1 classAndName at 0000016C")
    case("orphan-without-a-name", "144 00000001, 16D FFFFFF", """
error 13 BadName import 1 classAndName at 0000016C
error 15 OrphanImport import 1 classAndName at 0000016C""")
    case("entries-nowhere", "100 00000003, 108 FFFFFFFE, 110 00000009", """
error 16 BadEntry main mainSection at 00000100
error 16 BadEntry init initSection at 00000108
error 16 BadEntry term termSection at 00000110""")
    case("no-entries", "100 FFFFFFFF FFFFFFFF FFFFFFFF FFFFFFFF FFFFFFFF FFFFFFFF", "")
    case("entries-past-their-sections", "104 00000021, 10C 00000011, 114 00000010", """
note 105 EntryOutside main mainOffset at 00000104
note 105 EntryOutside init initOffset at 0000010C""")
    case("program-of-no-section", "174 0003", "error 17 BadRelocSection reloc 0 sectionIndex at 00000174")
    case("program-too-long", "184 00001000", "error 18 RelocOutside reloc 1 relocCount at 00000184")
    # Both programs together have 16 bytes from 18C on.
    case("program-far-away", "17C 80000000, 188 FFFFFFFF", """
note 113 UnownedBytes loader at 0000018C length 16
error 18 RelocOutside reloc 0 relocCount at 00000178
error 18 RelocOutside reloc 1 relocCount at 00000184""")
    case("library-and-program-reserved", "14D 000001, 165 800000, 182 0100", """
note 101 ReservedNotZero library 0 reservedA at 0000014D
note 101 ReservedNotZero library 1 reservedA at 00000165
note 101 ReservedNotZero reloc 1 reservedA at 00000182""")
    case("library-version-below-the-oldest", "13C 00000006", "note 104 VersionBelowOldest library 0 oldImpVersion at 0000013C")


def exports() -> None:
    # Without a table no export is read, and nothing has their names: the other names end at 1AF, and the section at 1E2.
    case("power-31", "130 0000001F", """
error 19 BadExportTable loader exportHashOffset at 0000012C
note 113 UnownedBytes loader at 000001AF length 51""")
    # 4 + 4 x 4 + 4 x 10 bytes from 1B4 on pass the end at 1E2.
    case("one-export-too-many", "134 00000004", """
error 19 BadExportTable loader exportHashOffset at 0000012C
note 113 UnownedBytes loader at 000001AF length 5""")
    case("no-exports-and-power-31", "130 0000001F 00000000", "note 113 UnownedBytes loader at 000001AF length 51")
    case("export-sections", "1CC 0003, 1D6 FFFC, 1DC 00000003", """
error 20 BadExportSection export 0 sectionIndex at 000001CC
error 20 BadExportSection export 1 sectionIndex at 000001D6
error 20 BadExportSection export 2 sectionIndex at 000001E0""")
    case("export-past-its-section", "1C8 00000021", "note 106 ExportOutside export 0 symbolValue at 000001C8")
    case("export-at-the-end-of-its-section", "1C8 00000020", "")
    case("wrong-hash-word", "1BE 006C", "note 108 IrregularExports loader exportHashOffset at 0000012C")
    case("slot-of-two-keys", "1B4 00080000", "note 108 IrregularExports loader exportHashOffset at 0000012C")


def packed_data() -> None:
    # The image has 16 bytes. The first instruction gives 8 of them.
    case("packed-truncated", "D9 28", "error 21 Truncated section 1 packed 9 at 000000D9")
    case("packed-bad-opcode", "D9 A0", "error 22 BadOpcode section 1 packed 9 at 000000D9")
    case("packed-count-too-large", "D0 20 FF FF FF FF 7F", "error 23 CountTooLarge section 1 packed 0 at 000000D0")
    case("packed-count-of-33-bits", "D0 00 90 80 80 80 00", "error 23 CountTooLarge section 1 packed 0 at 000000D0")
    case("packed-too-long", "D9 09", "error 24 TooLong section 1 packed 9 at 000000D9")
    case("packed-too-short", "D9 07", "error 25 TooShort section 1 packed 10 at 000000DA")
    case("image-of-20-bytes", "50 00000014", "error 25 TooShort section 1 packed 10 at 000000DA")


def programs() -> None:
    case("program-bad-opcode", "190 4C00", "error 31 BadOpcode reloc 0 halfword 2 at 00000190")
    # Two halfwords are left between the programs.
    case("program-cut", "178 00000005", """
note 113 UnownedBytes loader at 00000196 length 4
error 32 CutInstruction reloc 0 halfword 4 at 00000194""")
    case("repeat-of-four-halfwords", "18E 9300", "error 33 RepeatTooFar reloc 0 halfword 1 at 0000018E")
    case("repeat-of-half-an-instruction", "198 9000", "error 34 RepeatCuts reloc 0 halfword 6 at 00000198")
    case("repeat-of-a-repeat", "18E 9000 9000", "error 35 NestedRepeat reloc 0 halfword 2 at 00000190")
    # 4 + 4 x 4,194,303 + 1 steps.
    case("one-step-too-many", "18C 8000 8000 8000 8000 B0FF FFFF", "error 36 TooManySteps reloc 0 halfword 4 at 00000194")
    # Each pass adds to the next word. After the first one, seven passes end at word 28, the last one, and eight don't.
    case("passes-to-the-end", "18C 4000 9006 8003 8003 8003 8003 8003", "")
    case("pass-past-the-end", "18C 4000 9007 8003 8003 8003 8003 8003", "error 37 WordOutside reloc 0 halfword 0 at 0000018C word 00000020")
    # Each pass adds the next import. There are three.
    case("passes-of-imports", "18C 4A00 9001 8003 8003 8003 8003 8003", "")
    case("pass-of-a-fourth-import", "18C 4A00 9002 8003 8003 8003 8003 8003", """
error 38 ImportOutside reloc 0 halfword 0 at 0000018C word 0000000C""")
    # Each pass sets the position, and adds to word 4. Or it moves on by a byte from 1D to 1E, and the word there passes the end.
    case("passes-at-one-word", "18C A000 0004 4000 9204 8003 8003 8003", """
note 114 WordRelocatedTwice reloc 0 halfword 0 at 0000018C word 00000004""")
    case("passes-past-the-end", "18C A000 001D 8000 9204 4000 8003 8003", """
error 37 WordOutside reloc 0 halfword 4 at 00000194 word 0000001E""")
    # The memory of section 2 ends at 32. Word 28 is the last one.
    case("word-past-the-end", "196 001D", "error 37 WordOutside reloc 0 halfword 6 at 00000198 word 0000001D")
    # Seven words of section 1, whose image has 16 bytes and whose memory has 24.
    case("word-past-the-end-of-the-memory", "19A 4006", """
error 37 WordOutside reloc 1 halfword 0 at 0000019A word 00000018
note 107 WordOutsideImage reloc 1 halfword 0 at 0000019A word 00000010""")
    case("fourth-import", "18E 4A03", "error 38 ImportOutside reloc 0 halfword 1 at 0000018E word 00000010")
    case("fourth-section", "190 6603", "error 39 SectionOutside reloc 0 halfword 2 at 00000190 word 00000010")
    case("fourth-section-for-the-next", "190 6203", "error 39 SectionOutside reloc 0 halfword 2 at 00000190 word 00000010")
    case("word-past-the-image", "19A 4005", "note 107 WordOutsideImage reloc 1 halfword 0 at 0000019A word 00000010")
    # Two instructions add to word 0. The note is at the program.
    case("word-twice", "196 0000", "note 114 WordRelocatedTwice reloc 0 halfword 0 at 0000018C word 00000000")
    # Program 1 is for section 2, too, and adds to its words 0 and 4. Program 0 adds to both; then only to 4, 8, 12, 16 and 28.
    case("word-of-an-earlier-program", "180 0002", "note 114 WordRelocatedTwice reloc 1 halfword 0 at 0000019A word 00000000")
    case("second-word-of-an-earlier-program", "180 0002, 18C 8003", """
note 114 WordRelocatedTwice reloc 1 halfword 0 at 0000019A word 00000004""")
    # Program 0 adds to words 0, 4 and 8, and program 1, which is for section 2, too, to word 12, or to 8.
    case("word-after-those-of-an-earlier-program", "180 0002, 18C 4002 8003 8003 8003 8003 8003 8003, 19A 00C1", "")
    case("last-word-of-an-earlier-program", "180 0002, 18C 4002 8003 8003 8003 8003 8003 8003, 19A 0081", """
note 114 WordRelocatedTwice reloc 1 halfword 0 at 0000019A word 00000008""")
    # Words 8 and 4, each once.
    case("words-from-the-last-to-the-first", "18C A000 0008 4000 A000 0004 4000 8003", "")
    # Program 0 adds to word 0 twice, and then to 4. Program 1 is its last two instructions, which add to word 4.
    case("word-of-a-program-after-one-twice", "18C 4000 A000 0000 4000 4A02 8003 4200, 180 0002 0000 00000002 0000000A", """
note 113 UnownedBytes loader at 0000019A length 2
note 114 WordRelocatedTwice reloc 0 halfword 0 at 0000018C word 00000000
note 114 WordRelocatedTwice reloc 1 halfword 0 at 00000196 word 00000004""")


# What is printed of the relocation headers, with the programs that these changes make. The numbers are those of docs/FORMATS.md,
# 4.2: 4200 has the opcode 21 (hex) and the number 0, and B0FF FFFF the blocks 3 + 1 and the count 3FFFFF.
SECOND = """
00000180 reloc section 1 halfwords 1 first 14
0000019A 4001 BySectC 2
"""
PROGRAMS = [
    ("sound", "", """
00000174 reloc section 2 halfwords 7 first 0
0000018C 4000 BySectC 1
0000018E 4A02 ImportRun 3
00000190 6601 SmBySection 1
00000192 8003 IncrPosition 4
00000194 A000 001C SetPosition 28
00000198 4200 BySectD 1
""" + SECOND),
    ("bad-opcode", "190 4C00", """
00000174 reloc section 2 halfwords 7 first 0
0000018C 4000 BySectC 1
0000018E 4A02 ImportRun 3
error 31 BadOpcode reloc 0 halfword 2 at 00000190
""" + SECOND),
    ("cut", "178 00000005", """
00000174 reloc section 2 halfwords 5 first 0
0000018C 4000 BySectC 1
0000018E 4A02 ImportRun 3
00000190 6601 SmBySection 1
00000192 8003 IncrPosition 4
error 32 CutInstruction reloc 0 halfword 4 at 00000194
""" + SECOND),
    ("repeat-too-far", "18E 9300", """
00000174 reloc section 2 halfwords 7 first 0
0000018C 4000 BySectC 1
0000018E 9300 SmRepeat 4 1
error 33 RepeatTooFar reloc 0 halfword 1 at 0000018E
00000190 6601 SmBySection 1
00000192 8003 IncrPosition 4
00000194 A000 001C SetPosition 28
00000198 4200 BySectD 1
""" + SECOND),
    ("too-many-steps", "174 0000 0001, 18C 8000 8001 8002 8FFF B0FF FFFF", """
00000174 reloc section 0 halfwords 7 first 0
note 101 ReservedNotZero reloc 0 reservedA at 00000176
0000018C 8000 IncrPosition 1
0000018E 8001 IncrPosition 2
00000190 8002 IncrPosition 3
00000192 8FFF IncrPosition 4096
00000194 B0FF FFFF LgRepeat 4 4194303
error 36 TooManySteps reloc 0 halfword 4 at 00000194
00000198 4200 BySectD 1
""" + SECOND),
    ("no-instruction", "178 00000006, 18C 7FC0 4FFF 8001 4201 4400 4600, 19A 4800", """
00000174 reloc section 2 halfwords 6 first 0
error 31 BadOpcode reloc 0 halfword 0 at 0000018C
00000180 reloc section 1 halfwords 1 first 14
0000019A 4800 VTable8 1
"""),
    ("word-twice", "196 0000", """
00000174 reloc section 2 halfwords 7 first 0
0000018C 4000 BySectC 1
note 114 WordRelocatedTwice reloc 0 halfword 0 at 0000018C word 00000000
0000018E 4A02 ImportRun 3
00000190 6601 SmBySection 1
00000192 8003 IncrPosition 4
00000194 A000 0000 SetPosition 0
00000198 4200 BySectD 1
""" + SECOND),
    ("skips-and-sections", "18C 3FC1 0041 6201 6402 6001 B441 0002 9000", """
00000174 reloc section 2 halfwords 7 first 0
0000018C 3FC1 BySectDWithSkip 255 1
error 37 WordOutside reloc 0 halfword 0 at 0000018C word 000003FC
0000018E 0041 BySectDWithSkip 1 1
00000190 6201 SmSetSectC 1
00000192 6402 SmSetSectD 2
00000194 6001 SmByImport 1
00000196 B441 0002 LgSetSectC 65538
00000180 reloc section 1 halfwords 1 first 14
0000019A 9000 SmRepeat 1 1
error 33 RepeatTooFar reloc 1 halfword 0 at 0000019A
"""),
    ("one-program-for-two-headers", "180 0001 0000 00000006 00000000, 174 0001, 178 00000006", """
00000174 reloc section 1 halfwords 6 first 0
0000018C 4000 BySectC 1
0000018E 4A02 ImportRun 3
00000190 6601 SmBySection 1
note 107 WordOutsideImage reloc 0 halfword 2 at 00000190 word 00000010
00000192 8003 IncrPosition 4
00000194 A000 001C SetPosition 28
00000180 reloc section 1 halfwords 6 first 0
0000018C 4000 BySectC 1
note 114 WordRelocatedTwice reloc 1 halfword 0 at 0000018C word 00000000
0000018E 4A02 ImportRun 3
00000190 6601 SmBySection 1
note 107 WordOutsideImage reloc 1 halfword 2 at 00000190 word 00000010
00000192 8003 IncrPosition 4
00000194 A000 001C SetPosition 28
"""),
]


def several() -> None:
    case("everywhere", "0C 00000007, 42 21, 74 FFFFFFFF, D9 C0, 110 00000003, 138 FFFFFFFF, 180 0005, 18C FFFF, 1DC 00000009", """
error 4 BadFormatVersion container formatVersion at 0000000C
note 113 UnownedBytes container at 000000DA length 38
error 9 BadAlignment section 0 alignment at 00000042
error 22 BadOpcode section 1 packed 9 at 000000D9
error 6 SectionOutside section 2 containerOffset at 00000074
error 13 BadName library 0 nameOffset at 00000138
error 16 BadEntry term termSection at 00000110
error 31 BadOpcode reloc 0 halfword 0 at 0000018C
error 17 BadRelocSection reloc 1 sectionIndex at 00000180
error 20 BadExportSection export 2 sectionIndex at 000001E0""")
    case("program-and-image", "D9 07, 190 6603, 19A 5000", """
error 25 TooShort section 1 packed 10 at 000000DA
error 39 SectionOutside reloc 0 halfword 2 at 00000190 word 00000010
error 31 BadOpcode reloc 1 halfword 0 at 0000019A""")


def truncated() -> None:
    sections_outside = [f"error 6 SectionOutside section {i} containerOffset at {0x3C + 28 * i:08X}" for i in range(5)]
    case("cut-by-a-byte", "", sections_outside[4], cut=0x1EB)
    case("cut-in-the-exports", "", "\n".join([*sections_outside[3:], """
error 19 BadExportTable loader exportHashOffset at 0000012C
note 113 UnownedBytes loader at 000001AF length 5""".strip()]), cut=0x1E1)
    # 112 bytes of the loader section: the libraries are whole, and the imports aren't.
    case("cut-in-the-imports", "", "\n".join([*sections_outside[3:], """
error 12 BadTableOffset loader importedLibraryCount at 00000118
error 19 BadExportTable loader exportHashOffset at 0000012C
error 13 BadName library 0 nameOffset at 00000138
error 13 BadName library 1 nameOffset at 00000150""".strip()]), cut=0x170)
    case("cut-in-the-loader-header", "", "\n".join([*sections_outside[3:], """
error 11 LoaderShort loader mainSection at 00000100""".strip()]), cut=0x137)
    # Section 3 is the loader section, and begins past the end. If the section headers are cut, the names of sections 0 and 2 do, too.
    outside = "error 11 LoaderShort section 3 containerOffset at 00000090"
    case("cut-in-section-0", "", "\n".join([*sections_outside[:4], outside, sections_outside[4]]), cut=0xCF)
    case("cut-in-the-section-headers", "", "\n".join([
        "error 1 TooShort container at 00000000",
        sections_outside[0], "note 121 NameOutside section 0 nameOffset at 00000028", sections_outside[1],
        sections_outside[2], "note 121 NameOutside section 2 nameOffset at 00000060", sections_outside[3], outside,
    ]), cut=0xB3)
    case("container-header-alone", "", """
error 1 TooShort container at 00000000
error 10 NoLoader container at 00000000""", cut=0x28)


def limits() -> None:
    # Each limit is that of the page and the length of the file.
    # Five headers for one program of 16,777,213 steps. Four of them have 67,108,852 steps together.
    name, count = "steps-of-five-programs", 5
    head = b"Joy!peffpwpc" + struct.pack(">IIIIIHHI", 1, 0, 0, 0, 0, 2, 1, 0)
    data = struct.pack(">iIIIIIBBBB", -1, 0, 4, 4, 4, 96, 1, 1, 4, 0)
    own = struct.pack(">iIIIIIBBBB", -1, 0, 0, 0, 128, 112, 4, 4, 4, 0)
    tables = struct.pack(">iIiIiIIIIIIIII", -1, 0, -1, 0, -1, 0, 0, 0, count, 116, 128, 128, 0, 0)
    rows = struct.pack(">HHII", 0, 0, 6, 0) * count
    program = bytes.fromhex("8000 8000 8000 8000 B0FF FFFE")
    contents = head + data + own + bytes(4) + bytes(12) + tables + rows + program
    assert len(contents) == 240
    # Relocation headers begin at 112 + 56, and the fifth 48 bytes later.
    CASES.append(Case(name, contents, ["note 110 ProgramsUnverified reloc 4 sectionIndex at 000000D8"], seconds=120))

    # 270 such containers: the first one uses the limit of the file up, but for 64,812 steps. The last bytes of each are its program.
    count, size = 270, len(contents)
    lines = []
    for i in range(count):
        if i < count - 1:
            lines.append(f"note 109 TrailingBytes container at {size * (i + 1):08X} length {size * (count - 1 - i)}")
        row = 4 if i == 0 else 0
        lines.append(f"note 110 ProgramsUnverified reloc {row} sectionIndex at {size * i + 168 + 12 * row:08X}")
    CASES.append(Case("steps-of-270-containers", contents * count, lines, tuple(size * i for i in range(count)), seconds=30))

    # 66 headers for one program of 1,048,576 bytes: 64 have 67,108,864 bytes together, and the file is longer than the 65th.
    name, count, size = "bytes-of-66-programs", 66, 0x100000
    own = struct.pack(">iIIIIIBBBB", -1, 0, 0, 0, 56 + 12 * count + size, 112, 4, 4, 4, 0)
    end = 56 + 12 * count + size
    tables = struct.pack(">iIiIiIIIIIIIII", -1, 0, -1, 0, -1, 0, 0, 0, count, 56 + 12 * count, end, end, 0, 0)
    rows = struct.pack(">HHII", 0, 0, size // 2, 0) * count
    contents = head + data + own + bytes(4) + bytes(12) + tables + rows + b"\x80\x00" * (size // 2)
    # 112 + 56 + 12 x 65.
    CASES.append(Case(name, contents, ["note 110 ProgramsUnverified reloc 65 sectionIndex at 000003B4"], seconds=120))

    # A program that adds to 1,048,579 words of a section without an image: one more than 1,048,576 and a 64th of the length of the
    # file, which is 2.
    name, size = "words-of-one-program", 4 * 1048579
    large = struct.pack(">iIIIIIBBBB", -1, 0, size, 0, 0, 0, 1, 1, 4, 0)
    own = struct.pack(">iIIIIIBBBB", -1, 0, 0, 0, 74, 96, 4, 4, 4, 0)
    tables = struct.pack(">iIiIiIIIIIIIII", -1, 0, -1, 0, -1, 0, 0, 0, 1, 68, 74, 74, 0, 0)
    contents = head + large + own + tables + struct.pack(">HHII", 0, 0, 3, 0) + bytes.fromhex("4000 B010 0002")
    assert len(contents) == 170
    outside = "note 107 WordOutsideImage reloc 0 halfword 0 at 000000A4 word 00000000"
    unverified = "note 110 ProgramsUnverified reloc 0 sectionIndex at {:08X}"
    CASES.append(Case(name, contents, [unverified.format(0x98), outside], seconds=120))
    # One word fewer is as many.
    CASES.append(Case("words-within-the-limit", contents[:-1] + b"\x01", [outside], seconds=120))
    # That program again in a second container: a 64th of the length is 5 now, and 3 more are left than the first one used.
    twice = contents[:-1] + b"\x01"
    CASES.append(Case("words-of-two-containers", twice * 2, [
        "note 109 TrailingBytes container at 000000AA length 170", outside,
        unverified.format(0xAA + 0x98), "note 107 WordOutsideImage reloc 0 halfword 0 at 0000014E word 00000000",
    ], (0, 0xAA), seconds=120))

    # 300 sections with the same packed bytes, 1,048,576 of them: 256 sections have 268,435,456 bytes together, and the file is
    # longer than the 257th. The packed bytes are a block of 1,048,572 bytes. The headers end at 40 + 28 x 301, which is 2114 (hex).
    name, count, size = "bytes-of-300-packed-sections", 300, 0x100000
    head = b"Joy!peffpwpc" + struct.pack(">IIIIIHHI", 1, 0, 0, 0, 0, count + 1, count, 0)
    packed = struct.pack(">iIIIIIBBBB", -1, 0, size - 4, size - 4, size, 0x2120, 2, 1, 4, 0) * count
    own = struct.pack(">iIIIIIBBBB", -1, 0, 0, 0, 56, 0x102120, 4, 4, 4, 0)
    tables = struct.pack(">iIiIiIIIIIIIII", -1, 0, -1, 0, -1, 0, 0, 0, 0, 56, 56, 56, 0, 0)
    contents = head + packed + own + bytes(12) + b"\x20\xBF\xFF\x7C" + bytes(size - 4) + tables
    lines = []
    for i in range(count):
        if i == 257:
            lines.append("note 111 ImagesUnverified section 257 packedSize at 00001C54")
        if i > 0:
            lines.append(f"note 112 Overlap section {i} containerOffset at {60 + 28 * i:08X} length {size}")
    CASES.append(Case(name, contents, lines, seconds=120))

    # Two such containers: the limit is for 258 sections of the first one, and not for one more of the second.
    length, lines = len(contents), []
    for begins, reached in (0, 258), (length, 0):
        if begins == 0:
            lines.append(f"note 109 TrailingBytes container at {length:08X} length {length}")
        for i in range(count):
            if i == reached:
                lines.append(f"note 111 ImagesUnverified section {i} packedSize at {begins + 56 + 28 * i:08X}")
            if i > 0:
                lines.append(f"note 112 Overlap section {i} containerOffset at {begins + 60 + 28 * i:08X} length {size}")
    CASES.append(Case("packed-sections-of-two-containers", contents * 2, lines, (0, length), seconds=120))


def padded(contents: bytes) -> bytes:
    return contents + bytes(-len(contents) % 128)


def mac_binary(data: bytes, resources: bytes) -> bytes:
    """A MacBinary II file: its header, the data fork at 80 (hex), the resource fork at the next multiple of 128."""
    head = b"\0\x04Calc".ljust(65, b"\0") + b"APPL????" + bytes(10) + struct.pack(">II", len(data), len(resources))
    head = head.ljust(122, b"\0") + b"\x81\x81"
    return head + struct.pack(">HH", binascii.crc_hqx(head, 0), 0) + padded(data) + padded(resources)


def apple(tag: int, entries: List[Tuple[int, bytes]]) -> bytes:
    """An AppleSingle or AppleDouble file: 26 bytes, 12 bytes for each entry, and their contents one after the other."""
    head, body = struct.pack(">II16xH", tag, 0x00020000, len(entries)), b""
    for number, contents in entries:
        head += struct.pack(">III", number, 26 + 12 * len(entries) + len(body), len(contents))
        body += contents
    return head + body


def resource_fork(kind: bytes, number: int, contents: bytes) -> bytes:
    """A resource fork with one resource: its length at 10 (hex), its bytes at 14, and the map after them."""
    data = struct.pack(">I", len(contents)) + contents
    types = struct.pack(">H4sHH", 0, kind, 0, 10) + struct.pack(">hHII", number, 0xFFFF, 0, 0)
    header = struct.pack(">4I", 16, 16 + len(data), len(data), 28 + len(types))
    return header + data + header + struct.pack(">4xHHHH", 0, 0, 28, 28 + len(types)) + types


def fragments(*members: Tuple[bytes, int, int, int]) -> bytes:
    """A table of fragments. Each member is a name of four bytes, `where`, and its two fields, and has 48 bytes, from 20 (hex) on."""
    table = struct.pack(">10xH18xH", 1, len(members))
    for name, where, first, second in members:
        table += struct.pack(">4s3xBIIIHBBIIIHHH", b"pwpc", 0, 0, 0, 0, 0, 1, where, first, second, 0, 0, 0, 48) + b"\4" + name + b"\0"
    return table


def inside(name: str, contents: bytes, form: str, lines: str, *offsets: int) -> None:
    CASES.append(Case(name, contents, lines.strip().splitlines(), offsets, form))


def other_files() -> None:
    # Section 0 has alignment 32: the byte at 42 of the container.
    bad = changed(WHOLE, "42 20")
    inside("nothing", b"", "other", "")
    inside("39-bytes", WHOLE[:39], "other", "")
    inside("another-tag", changed(WHOLE, "07 67"), "other", "")
    inside("after-7-bytes", b"padding" + bad, "other", "error 9 BadAlignment section 0 alignment at 00000049", 7)
    inside("two-containers", WHOLE + bad, "container", """
note 109 TrailingBytes container at 000001EC length 492
error 9 BadAlignment section 0 alignment at 0000022E""", 0, 0x1EC)
    inside("two-containers-and-more", bad + b"and" + WHOLE + b"more", "container", """
note 109 TrailingBytes container at 000001EC length 499
error 9 BadAlignment section 0 alignment at 00000042
note 109 TrailingBytes container at 000003DB length 4""", 0, 0x1EF)

    # The data fork is at 80 (hex) and the container 8 bytes later. It ends with the fork. The resource fork is at 280.
    calc = resource_fork(b"cfrg", 0, fragments((b"Calc", 1, 8, 0)))
    inside("macbinary", mac_binary(b"not yet." + bad, calc), "macbinary", "error 9 BadAlignment section 0 alignment at 000000CA", 0x88)
    inside("macbinary-more", mac_binary(b"not yet." + bad + b"more", calc), "macbinary", """
note 109 TrailingBytes container at 00000274 length 4
error 9 BadAlignment section 0 alignment at 000000CA""", 0x88)
    # The data fork ends 11 bytes before the container's end, so the last export is cut. The file goes on with the resource fork.
    inside("macbinary-cut", mac_binary(b"not yet." + WHOLE[:0x1E1], calc), "macbinary", """
note 118 FragmentShort fragment 0 at 000002B4 length 11
error 6 SectionOutside section 3 containerOffset at 00000118
error 6 SectionOutside section 4 containerOffset at 00000134
error 19 BadExportTable loader exportHashOffset at 000001B4
note 113 UnownedBytes loader at 00000237 length 5""", 0x88)
    # The file was cut: inside the container, and 20 bytes after the beginning of the resource fork.
    whole = mac_binary(b"not yet." + WHOLE, calc)
    inside("macbinary-broken-off", whole[: 0x88 + 0x1E1], "macbinary", """
error 76 DataForkCut fork at 00000053
error 77 ResourceForkCut fork at 00000057
error 6 SectionOutside section 3 containerOffset at 00000118
error 6 SectionOutside section 4 containerOffset at 00000134
error 19 BadExportTable loader exportHashOffset at 000001B4
note 113 UnownedBytes loader at 00000237 length 5""", 0x88)
    inside("macbinary-resources-broken-off", whole[: 0x280 + 20], "macbinary", """
error 77 ResourceForkCut fork at 00000057
error 87 ResourceMapOutside resource at 00000284""", 0x88)
    # One bit of the data fork's length is wrong, and so is the CRC. The comment's length, without a comment.
    inside("macbinary-wrong-length", changed(whole, "53 40"), "macbinary", """
error 81 BadMacBinaryCrc fork at 0000007C
error 76 DataForkCut fork at 00000053
error 77 ResourceForkCut fork at 00000057
note 109 TrailingBytes container at 00000274 length 268""", 0x88)
    inside("macbinary-without-its-comment", changed(mac_binary(b"", b""), "63 0005"), "macbinary", """
error 81 BadMacBinaryCrc fork at 0000007C
error 78 CommentCut fork at 00000063""")
    inside("macbinary-wrong-crc", changed(mac_binary(bad, b""), "7C 0000"), "macbinary", """
error 81 BadMacBinaryCrc fork at 0000007C
error 9 BadAlignment section 0 alignment at 000000C2""", 0x80)

    # The data fork has 12 bytes, and the resource fork begins at 100. Its resource begins at 114, so the members at 134, 164 and
    # 194. The offset of a member is at its byte 24.
    named = fragments((b"Calc", 1, 0, 0), (b"Draw", 1, 4, 4), (b"Tail", 1, 64, 0))
    inside("members-without-containers", mac_binary(b"nothing here", resource_fork(b"cfrg", 0, named)), "macbinary", """
error 80 NoContainer fragment 0 at 00000134
error 80 NoContainer fragment 1 at 00000164
error 98 FragmentOutside fragment 2 at 000001AC""")

    # The resource fork was cut: in the reference at 8A, which is the last row of its map at 64, and after its header.
    alone = resource_fork(b"cfrg", 0, fragments((b"Calc", 1, 0, 0)))
    inside("resource-fork-broken-off", alone[:-1], "resources", """
error 87 ResourceMapOutside resource at 00000004
error 91 ReferenceCut resource at 0000008A""")
    inside("resource-fork-header-alone", alone[:16], "resources", "error 87 ResourceMapOutside resource at 00000004")

    # A resource's bytes begin at 14. After them are the 50 bytes of the map, which the container doesn't have.
    inside("resource", resource_fork(b"ndrv", 1, bad), "resources", "error 9 BadAlignment section 0 alignment at 00000056", 0x14)
    inside("macbinary-resource", mac_binary(b"", resource_fork(b"ndrv", 1, bad)), "macbinary",
           "error 9 BadAlignment section 0 alignment at 000000D6", 0x94)
    inside("resource-more", resource_fork(b"ndrv", 1, b"skip" + bad + b"more"), "resources", """
note 109 TrailingBytes container at 00000204 length 4
error 9 BadAlignment section 0 alignment at 0000005A""", 0x18)
    # The resource ends 11 bytes before the container's end, so the last export is cut, although the map follows. If the length of the
    # resource passes the data, nothing is known of where it ends, and the container needs bytes of the map: 50 of 61 are left after it.
    inside("resource-cut", resource_fork(b"ndrv", 1, WHOLE[:0x1E1]), "resources", """
error 6 SectionOutside section 3 containerOffset at 000000A4
error 6 SectionOutside section 4 containerOffset at 000000C0
error 19 BadExportTable loader exportHashOffset at 00000140
note 113 UnownedBytes loader at 000001C3 length 5""", 0x14)
    inside("resource-without-its-end", changed(resource_fork(b"ndrv", 1, bad), "10 00010000"), "resources", """
error 93 ResourceDataOutside resource at 0000022A
note 109 TrailingBytes container at 00000200 length 50
error 9 BadAlignment section 0 alignment at 00000056""", 0x14)

    # The resource fork is at 80, its resource at 94, and the member at B4.
    alone = mac_binary(b"", resource_fork(b"cfrg", 0, fragments((b"Calc", 1, 0, 0))))
    inside("resource-map-outside", changed(alone, "84 00000200"), "macbinary", "error 87 ResourceMapOutside resource at 00000084")
    inside("fragment-table-version", changed(alone, "9E 0002"), "macbinary", "error 95 BadFragmentTable fragment at 0000009E")
    inside("member-cut", changed(alone, "B2 0002"), "macbinary", """
error 80 NoContainer fragment 0 at 000000B4
error 96 MemberCut fragment 1 at 000000E4""")
    inside("member-name-cut", changed(alone, "DE FF"), "macbinary", """
error 97 MemberNameCut fragment 0 at 000000DE
error 80 NoContainer fragment 0 at 000000B4""")

    # The rows of the two entries are at 1A and 26, and their offsets at 1E and 2A. The data fork is at 32. If it isn't known where
    # it ends, the container goes on to the end of the file, 150 bytes after its own.
    both = apple(0x00051600, [(1, bad), (2, resource_fork(b"cfrg", 0, fragments((b"Calc", 1, 0, 0))))])
    found = "error 9 BadAlignment section 0 alignment at 00000074"
    trailing = "note 109 TrailingBytes container at 0000021E length 150\n"
    inside("applesingle", both, "applesingle", found, 0x32)
    inside("applesingle-version", changed(both, "04 00030000"), "damaged", f"""
error 83 BadAppleVersion fork at 00000004
{trailing}{found}""", 0x32)
    inside("applesingle-data-outside", changed(both, "22 000003E8"), "applesingle", f"""
error 85 AppleEntryOutside fork 0 at 0000001E
note 119 DataForkElsewhere fragment 0 at 00000252
{trailing}{found}""", 0x32)
    inside("applesingle-resources-outside", changed(both, "2E 000003E8"), "applesingle", f"""
error 85 AppleEntryOutside fork 1 at 0000002A
{found}""", 0x32)
    # With FFFF entries the row of entry 55 would go from 2AE to 2BA, and the file ends at 2B4. In the next file only the beginning of
    # the second row is there, and nothing of the data fork.
    inside("applesingle-rows-cut", changed(both, "18 FFFF"), "applesingle", f"""
error 84 AppleEntryCut fork 55 at 000002AE
{found}""", 0x32)
    inside("applesingle-truncated-in-rows", both[:0x2A], "applesingle", """
error 84 AppleEntryCut fork 1 at 00000026
error 85 AppleEntryOutside fork 0 at 0000001E""")
    # The resource fork is at 26, its resource at 3A, and the member at 5A. Alone it is at 0, and the member at 34.
    inside("appledouble", apple(0x00051607, [(2, resource_fork(b"cfrg", 0, fragments((b"Calc", 1, 0, 0))))]), "appledouble",
           "note 119 DataForkElsewhere fragment 0 at 0000005A")
    inside("resources-alone", resource_fork(b"cfrg", 0, fragments((b"Calc", 1, 0, 0))), "resources",
           "note 119 DataForkElsewhere fragment 0 at 00000034")


def file_notes() -> None:
    calc = resource_fork(b"cfrg", 0, fragments((b"Calc", 1, 0, 0)))
    # The data fork has 492 bytes from 80 on and is filled up to 280. The resource fork has 150 from there, and is filled up to 380.
    binary = mac_binary(WHOLE, calc)
    binary += bytes(0x380 - len(binary))
    inside("macbinary-filled", binary, "macbinary", "", 0x80)
    inside("macbinary-and-more", binary + b"more", "macbinary", "note 117 BytesAfterForks fork at 00000380 length 4", 0x80)
    # The resource fork is at 280, its resource at 294, and the members at 2B4 and 2E4. The container needs 492 bytes, and the member has
    # 481. So the last export is cut, although the fork goes on. The first member whose container begins there counts.
    lines = """
error 6 SectionOutside section 3 containerOffset at 00000110
error 6 SectionOutside section 4 containerOffset at 0000012C
error 19 BadExportTable loader exportHashOffset at 000001AC
note 113 UnownedBytes loader at 0000022F length 5"""
    note = "note 118 FragmentShort fragment {} at {:08X} length 11"
    short, whole = (b"Calc", 1, 0, 481), (b"Draw", 1, 0, 492)
    for name, members, notes in (
        ("fragment-short", (short,), note.format(0, 0x2B4) + lines),
        ("fragment-short-and-whole", (short, whole), note.format(0, 0x2B4) + lines),
        ("fragment-whole-and-short", (whole, short), note.format(1, 0x2E4)),
    ):
        inside(name, mac_binary(WHOLE, resource_fork(b"cfrg", 0, fragments(*members))), "macbinary", notes, 0x80)
    # The architecture of the member, at 2B4, and its usage, at 2CA. In the resource fork alone the member is at 34.
    odd = "note 122 FragmentArchitecture fragment 0 at 000002B4"
    unnamed = "note 123 FragmentUsage fragment 0 at 000002B4"
    for name, changes, notes in (
        ("architecture-of-68k", "2B4 6D36386B", odd),
        ("architecture-in-capitals", "2B4 50775063", odd),
        ("any-architecture", "2B4 3F3F3F3F", ""),
        ("usage-4", "2CA 04", ""),
        ("usage-5", "2CA 05", unnamed),
        ("usage-9-for-68k", "2B4 6D36386B, 2CA 09", f"{odd}\n{unnamed}"),
    ):
        inside(f"fragment-of-{name}", changed(mac_binary(WHOLE, calc), changes), "macbinary", notes, 0x80)
    for name, changes, notes in (("known", "34 6D36386B", ""), ("unknown", "34 50775063", "\nnote 122 FragmentArchitecture fragment 0 at 00000034")):
        inside(f"fragment-elsewhere-of-{name}-architecture", changed(calc, changes), "resources",
               f"note 119 DataForkElsewhere fragment 0 at 00000034{notes}")
    for name, contents, words in (
        ("stuffit", b"SIT!" + bytes(60), "stuffit open unar"),
        ("stuffit-5", b"StuffIt (c)1997-2001 Aladdin Systems, Inc.", "stuffit open unar"),
        ("binhex", b"(This file must be converted with BinHex 4.0)\r\r:", "binhex open unar"),
        ("zip", b"PK\3\4" + bytes(26), "zip open unzip"),
        ("partitions", b"ER" + bytes(510) + b"PM" + bytes(510), "partitions open 7z"),
        ("hfs", bytes(1024) + b"BD" + bytes(34) + b"\4Disk" + bytes(471), "hfs open hfsutils"),
        ("hfsplus", bytes(1024) + b"H+\0\4" + bytes(508), "hfsplus open 7z"),
        ("hfsx", bytes(1024) + b"HX\0\5" + bytes(508), "hfsplus open 7z"),
        ("iso9660", bytes(32768) + b"\1CD001" + bytes(2042), "iso9660 open 7z"),
        ("diskcopy", b"\4Disk" + bytes(59) + struct.pack(">II", 24, 4) + bytes(10) + b"\1\0" + bytes(28), "diskcopy open hfsutils"),
        ("compactpro", b"\1\1" + bytes(2) + struct.pack(">I", 12) + bytes(12), "compactpro open unar"),
    ):
        inside(f"format-{name}", contents, "other", f"note 120 NotUnpacked fork at 00000000 format {words}")
    for name, contents in (
        ("hfs-without-name", bytes(1024) + b"BD" + bytes(510)),
        ("diskcopy-of-another-length", b"\4Disk" + bytes(59) + struct.pack(">II", 24, 4) + bytes(10) + b"\1\0" + bytes(29)),
        ("compactpro-without-directory", b"\1\1" + bytes(2) + struct.pack(">I", 14) + bytes(12)),
        ("hfsplus-of-another-version", bytes(1024) + b"H+\0\5" + bytes(508)),
    ):
        inside(f"no-{name}", contents, "other", "")
    archive = mac_binary(b"SIT!" + bytes(60), b"")
    inside("stuffit-in-macbinary", archive, "macbinary", "note 120 NotUnpacked fork at 00000080 format stuffit open unar")


# A MacBinary file whose member has another number in each field: its version is 1.2b3, its oldest definition 1.0.
MEMBER = struct.pack(">4s3xBIIIHBBIIIHHH", b"pwpc", 0, 0x01206003, 0x01008000, 65536, 5, 1, 1, 8, 492, 7, 9, 0, 48) + b"\4Calc\0"
MEMBER_FILE = mac_binary(b"not yet." + WHOLE, resource_fork(b"cfrg", 0, struct.pack(">10xH18xH", 1, 1) + MEMBER))
MEMBER_LINES = """
00000080 fork data size 500
00000280 fork resource size 150
mac name Calc type APPL creator ???? created 1904-01-01T00:00:00 modified 1904-01-01T00:00:00
00000294 resource cfrg 0 size 80 attributes 0
000002B4 fragment 0 Calc architecture pwpc usage 1 application where 1 data container 00000088 size 492 versions 1.2b3 1.0 \
current 18898947 olddef 16809984 level 0 stack 65536 directory 5 place 00000008 length 492 space 7 instance 9 extensions 0
""".strip().splitlines()
MEMBER_FORKS = [{"kind": "data", "offset": 0x80, "length": 500}, {"kind": "resource", "offset": 0x280, "length": 150}]
MEMBER_MAC = {
    "name": "Calc", "type": "APPL", "creator": "????", "flags": 0, "created": 0, "created_text": "1904-01-01T00:00:00", "modified": 0,
    "modified_text": "1904-01-01T00:00:00",
}
# What files in AppleDouble say of themselves, by their entries: the name (3), the dates (8) and what the Finder knows (9). Dates count
# from 2000, the earliest one is unknown, and one after 2040 doesn't fit.
NOTHING_SAID = dict.fromkeys(MEMBER_MAC)
FINDER = b"APPLCalc\x21\x40" + bytes(22)
SAID = [
    ([], {}),
    ([(3, b"Caf\x8e")], {"name": "Caf\u00e9", "name_hex": "4361668E"}),
    ([(9, FINDER)], {"type": "APPL", "creator": "Calc", "flags": 0x2140}),
    ([(9, FINDER[:15])], {}),
    ([(8, struct.pack(">4i", 1, -2, 3, 4))], {
        "created": 3029529601, "created_text": "2000-01-01T00:00:01", "modified": 3029529598, "modified_text": "1999-12-31T23:59:58",
    }),
    ([(8, struct.pack(">4i", -0x80000000, -0x7FFFFFFF, 3, 4))], {"modified": 882045953, "modified_text": "1931-12-13T20:45:53"}),
    ([(8, struct.pack(">4i", 1265437695, 1265437696, 3, 4))], {"created": 4294967295, "created_text": "2040-02-06T06:28:15"}),
    ([(8, struct.pack(">3i", 1, 2, 3))], {}),
]
MEMBER_RESOURCES = [{"type": "cfrg", "id": 0, "name": None, "offset": 0x294, "length": 80, "attributes": 0}]
MEMBER_FRAGMENTS = [{
    "name": "Calc", "offset": 0x88, "size": 492, "row": 0, "at": 0x2B4, "architecture": "pwpc", "usage": 1, "usage_text": "application",
    "where": 1, "where_text": "data",
    "current": 0x01206003, "current_text": "1.2b3", "olddef": 0x01008000, "olddef_text": "1.0", "level": 0, "stack": 65536,
    "directory": 5, "place": 8, "length": 492, "space": 7, "instance": 9, "extensions": 0,
}]


# The bytes of the whole container whose change isn't seen in its report: the code, what a packed block holds, the data and the traceback
# bytes, which no rule reads.
UNSEEN = [(0xC0, 0xD0), (0xD1, 0xD9), (0xE0, 0x100), (0x1E4, 0x1EC)]

# Names of each byte but zero, 17 bytes long.
NAMES = [bytes(range(start, start + 17)) for start in range(1, 256, 17)]


def named_container(names: List[bytes]) -> bytes:
    """A container without sections but the loader section, with weak libraries of these names and no imports."""
    strings, rows = b"", b""
    for name in names:
        rows += struct.pack(">IIIIIBxxx", len(strings), 0, 0, 0, 0, 0x40)
        strings += name + b"\0"
    end = 56 + len(rows) + len(strings)
    tables = struct.pack(">iIiIiIIIIIIIII", -1, 0, -1, 0, -1, 0, len(names), 0, 0, 56 + len(rows), 56 + len(rows), end, 0, 0)
    head = b"Joy!peffpwpc" + struct.pack(">IIIIIHHI", 1, 0, 0, 0, 0, 1, 0, 0)
    own = struct.pack(">iIIIIIBBBB", -1, 0, 0, 0, end, 68, 4, 4, 4, 0)
    return head + own + tables + rows + strings


def shared_by_imports(count: int, length: int) -> bytes:
    """A container without sections but the loader section, with imports of one library, which all have the library's name."""
    strings = b"n" * length + b"\0"
    start = 56 + 24 + 4 * count
    end = start + len(strings)
    tables = struct.pack(">iIiIiIIIIIIIII", -1, 0, -1, 0, -1, 0, 1, count, 0, start, start, end, 0, 0)
    tables += struct.pack(">IIIIIBxxx", 0, 0, 0, count, 0, 0) + struct.pack(">I", 0x02000000) * count
    head = b"Joy!peffpwpc" + struct.pack(">IIIIIHHI", 1, 0, 0, 0, 0, 1, 0, 0)
    own = struct.pack(">iIIIIIBBBB", -1, 0, 0, 0, end, 68, 4, 4, 4, 0)
    return head + own + tables + strings


def shared_by_sections(count: int, length: int) -> bytes:
    """The header of a container, and headers of sections without bytes, which all have one name."""
    head = b"Joy!peffpwpc" + struct.pack(">IIIIIHHI", 1, 0, 0, 0, 0, count, 0, 0)
    return head + struct.pack(">iIIIIIBBBB", 0, 0, 0, 0, 0, 0, 5, 4, 4, 0) * count + b"n" * length + b"\0"


def headers_and_zeros(count: int, length: int) -> bytes:
    """So many headers of containers without sections, and zeros, which each of them has to itself."""
    return (b"Joy!peffpwpc" + struct.pack(">IIIIIHHI", 1, 0, 0, 0, 0, 0, 0, 0)) * count + bytes(length)


def members_of_sections(count: int, sections: int) -> bytes:
    """MacBinary with so many members, all at one container with so many sections, whose last one ends past the fork."""
    empty = struct.pack(">iIIIIIBBBB", -1, 0, 0, 0, 0, 0, 1, 1, 4, 0)
    last = struct.pack(">iIIIIIBBBB", -1, 0, 0, 0, 8, 40 + 28 * sections, 4, 4, 4, 0)
    made = b"Joy!peffpwpc" + struct.pack(">IIIIIHHI", 1, 0, 0, 0, 0, sections, 0, 0) + empty * (sections - 1) + last
    return mac_binary(made, resource_fork(b"cfrg", 0, fragments(*[(b"Same", 1, 0, len(made))] * count)))


def relocated_again(count: int) -> bytes:
    """A container with a section of one word, to which so many relocation headers add by one program."""
    head = b"Joy!peffpwpc" + struct.pack(">IIIIIHHI", 1, 0, 0, 0, 0, 2, 1, 0)
    data = struct.pack(">iIIIIIBBBB", -1, 0, 4, 4, 4, 96, 1, 1, 4, 0)
    start = 56 + 12 * count
    own = struct.pack(">iIIIIIBBBB", -1, 0, 0, 0, start + 2, 112, 4, 4, 4, 0)
    tables = struct.pack(">iIiIiIIIIIIIII", -1, 0, -1, 0, -1, 0, 0, 0, count, start, start + 2, start + 2, 0, 0)
    return head + data + own + bytes(4) + bytes(12) + tables + struct.pack(">HHII", 0, 0, 1, 0) * count + bytes.fromhex("4000")


def overlapping(count: int) -> bytes:
    """A container of so many sections that all have the same four bytes, and of the loader section."""
    at = 40 + 28 * (count + 1)
    head = b"Joy!peffpwpc" + struct.pack(">IIIIIHHI", 1, 0, 0, 0, 0, count + 1, count, 0)
    data = struct.pack(">iIIIIIBBBB", -1, 0, 4, 4, 4, at, 1, 1, 4, 0) * count
    own = struct.pack(">iIIIIIBBBB", -1, 0, 0, 0, 56, at + 4, 4, 4, 4, 0)
    return head + data + own + bytes(4) + struct.pack(">iIiIiIIIIIIIII", -1, 0, -1, 0, -1, 0, 0, 0, 0, 56, 56, 56, 0, 0)


def reordered(contents: bytes, order: List[int], count: int, instantiated: int) -> bytes:
    """A container with its section headers in another order, and with these counts of sections and of instantiated ones."""
    headers = [contents[40 + 28 * number : 68 + 28 * number] for number in order]
    return contents[:32] + struct.pack(">HH", count, instantiated) + contents[36:40] + b"".join(headers) + contents[40 + 28 * len(order) :]


def loader_among(count: int, place: int) -> bytes:
    """A container of so many sections, all of them instantiated, of which one is the loader section of a stub library."""
    other = struct.pack(">iIIIIIBBBB", -1, 0, 0, 0, 0, 0, 1, 1, 4, 0)
    own = struct.pack(">iIIIIIBBBB", -1, 0, 0, 0, 0x72, 40 + 28 * count, 4, 4, 4, 0)
    head = STUB[:32] + struct.pack(">HH", count, count) + STUB[36:40]
    return head + other * place + own + other * (count - place - 1) + STUB[0x60:0xD2]


for group in container_header, sections, order_of_sections, zero_rows, text_damage, loader, exports, packed_data, programs, several, truncated, limits, other_files, file_notes:
    group()
