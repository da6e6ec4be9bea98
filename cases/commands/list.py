"""`pef list`: what containers declare, and the first error of a damaged one."""
from data.containers import EMPTY, RICH, VECTORS
from data.refusals import MISSING, at_byte, at_halfword, refused
from suite import Case, changed

VECTORS_LISTED = b"""\
container current 1 olddef 0 oldimp 0 date 0
section 0 kind 0 share 4 align 4 total 8 unpacked 8 packed 8 default 00000000 name -
section 1 kind 1 share 1 align 4 total 16 unpacked 16 packed 16 default 00000000 name -
section 2 kind 4 share 4 align 4 total 0 unpacked 0 packed 90 default 00000000 name -
main 1 00000000
reloc section 1 halfwords 1
4601 TVector8 2
export go class 2 section 1 value 00000000
"""

# The name of section 1 is empty.
RICH_LISTED = b"""\
container current 7 olddef 5 oldimp 6 date 2592832621
section 0 kind 0 share 4 align 4 total 16 unpacked 16 packed 16 default 00000000 name %2D
section 1 kind 1 share 1 align 2 total 64 unpacked 0 packed 0 default 10002000 name\x20
section 2 kind 2 share 1 align 3 total 16 unpacked 8 packed 2 default 00000000 name data%20%25%E9
section 3 kind 4 share 4 align 4 total 0 unpacked 0 packed 262 default 00000000 name -
section 4 kind 5 share 255 align 40 total 0 unpacked 9 packed 3 default FFFFFFFF name -
section 5 kind 8 share 0 align 0 total 1 unpacked 2 packed 0 default 00000000 name -
library Tools current 3 oldimp 2 options 00
library A%20b current 1 oldimp 1 options C0
import 0 f of Tools class 2 strong
import 1 v of Tools class 1 weak
import 2 w%20x of A%20b class 4 weak
main 0 00000004
init 1 00000008
term 2 0000000C
reloc section 1 halfwords 26
0041 BySectDWithSkip 1 1
4001 BySectC 2
4202 BySectD 3
4403 TVector12 4
4601 TVector8 2
4805 VTable8 6
4A06 ImportRun 7
61FF SmByImport 511
6202 SmSetSectC 2
6401 SmSetSectD 1
6600 SmBySection 0
8FFF IncrPosition 4096
9001 SmRepeat 1 2
A000 0004 SetPosition 4
A400 0258 LgByImport 600
B440 0002 LgSetSectC 2
B480 0001 LgSetSectD 1
B400 0003 LgBySection 3
4000 BySectC 1
B000 0003 LgRepeat 1 3
reloc section 0 halfwords 0
export go class 2 section 1 value 00000010
export abs class 0 section -2 value DEADBEEF
export u class 1 section -3 value 00000002
"""

EMPTY_LISTED = b"""\
container current 0 olddef 0 oldimp 0 date 0
section 0 kind 4 share 4 align 4 total 0 unpacked 0 packed 60 default 00000000 name -
"""

# The loader section has 56 bytes of its header, 28 for the library and the import, 8 for their names and that of the export with
# zeros up to a multiple of 4, and 18 for a slot, a key and the export.
REEXPORT = b"versions 1 0 0\nlibrary L 1 0 -\nimport v data strong\nsection m data process 4 4\nreexport u data v\n"
REEXPORT_LISTED = b"""\
container current 1 olddef 0 oldimp 0 date 0
section 0 kind 1 share 1 align 4 total 4 unpacked 0 packed 0 default 00000000 name -
section 1 kind 4 share 4 align 4 total 0 unpacked 0 packed 110 default 00000000 name -
library L current 1 oldimp 0 options 00
import 0 v of L class 1 strong
export u class 1 section -3 value 00000000
"""

CASES = [
    Case("code and data with transition vectors", ["list", "a"], {"a": VECTORS}, stdout=VECTORS_LISTED),
    Case("what link doesn't write", ["list", "a"], {"a": RICH}, stdout=RICH_LISTED),
    Case("an empty script", ["list", "a"], {"a": EMPTY}, stdout=EMPTY_LISTED),
    Case("an import that is exported again", ["list", "a"], linked={"a": REEXPORT}, stdout=REEXPORT_LISTED),
    Case("no file", ["list", "a b"], **refused(b"71 FileUnreadable a%20b", MISSING)),
    Case("an empty file", ["list", "a"], {"a": b""}, **refused(b"1 TooShort")),
    Case("a tag alone", ["list", "a"], {"a": b"Joy!"}, **refused(b"1 TooShort")),
]

# An offset and the bytes that are changed there, the error, and where it is.
DAMAGED_VECTORS = (
    # 255 sections
    (32, b"\xFF", b"1 TooShort", b""),
    (0, b"j", b"2 BadTag", at_byte(b"the tag of the container header", 0)),
    (8, b"m68k", b"3 BadArchitecture", at_byte(b"the architecture in the container header", 8)),
    (15, b"\x02", b"4 BadFormatVersion", at_byte(b"the version of the format in the container header", 12)),
    (35, b"\x04", b"5 BadSectionCounts", at_byte(b"the number of instantiated sections in the container header", 34)),
    (115, b"\x5B", b"6 SectionOutside", at_byte(b"the offset of the raw data of section 2, counted from 0", 116)),
    (64, b"\x04", b"7 BadSectionKind", at_byte(b"the kind of section 0, counted from 0", 64)),
    (55, b"\x09", b"8 BadSizes", at_byte(b"the size of the image of section 0, counted from 0", 52)),
    (83, b"\x11", b"8 BadSizes", at_byte(b"the size of the image of section 1, counted from 0", 80)),
    (66, b"\x20", b"9 BadAlignment", at_byte(b"the alignment of section 0, counted from 0", 66)),
    (94, b"\x20", b"9 BadAlignment", at_byte(b"the alignment of section 1, counted from 0", 94)),
    (120, b"\x05", b"10 NoLoader", b""),
    (115, b"\x37", b"11 LoaderShort", at_byte(b"the loader header", 160)),
    # 255 libraries
    (187, b"\xFF", b"12 BadTableOffset", at_byte(b"the number of libraries in the loader header", 184)),
    (236, b"\xFF", b"13 BadName", at_byte(b"the name of export 0, counted from 0", 240)),
    (163, b"\x02", b"16 BadEntry", at_byte(b"the section of the main entry point", 160)),
    (217, b"\x02", b"17 BadRelocSection", at_byte(b"the section of relocation header 0, counted from 0", 216)),
    (220, b"\xFF", b"18 RelocOutside", at_byte(b"the number of halfwords of relocation header 0, counted from 0", 220)),
    # a second export, which passes the end
    (215, b"\x02", b"19 BadExportTable", at_byte(b"the offset of the export hash table in the loader header", 204)),
    (248, b"\xFF\xFF", b"20 BadExportSection", at_byte(b"the section of export 0, counted from 0", 248)),
    (228, b"\x4C\x00", b"31 BadOpcode", at_halfword(0, 1, 228)),
    (228, b"\xA0\x00", b"32 CutInstruction", at_halfword(0, 1, 228)),
    (228, b"\x90\x00", b"33 RepeatTooFar", at_halfword(0, 1, 228)),
)

DAMAGED_RICH = (
    (32, b"\xFF", b"1 TooShort", b""),
    (8, b"x", b"3 BadArchitecture", at_byte(b"the architecture in the container header", 8)),
    (15, b"\x02", b"4 BadFormatVersion", at_byte(b"the version of the format in the container header", 12)),
    (35, b"\x07", b"5 BadSectionCounts", at_byte(b"the number of instantiated sections in the container header", 34)),
    (148, b"\x05", b"10 NoLoader", b""),
    (142, b"\x00\x0A", b"11 LoaderShort", at_byte(b"the loader header", 237)),
    (293, b"\xFF\xFF\xFF\xFF", b"13 BadName", at_byte(b"the name of library 0, counted from 0", 293)),
    (346, b"\xFF\xFF\xFF", b"13 BadName", at_byte(b"the name of import 1, counted from 0", 345)),
    (470, b"\xFF\xFF\xFF", b"13 BadName", at_byte(b"the name of export 0, counted from 0", 469)),
    # the second library has two imports from import 2 on, of three; then none
    (332, b"\x02", b"14 BadLibraryRange", at_byte(b"the first import of library 1, counted from 0", 333)),
    (332, b"\x00", b"15 OrphanImport", at_byte(b"the name of import 2, counted from 0", 349)),
    (308, b"\x01", b"15 OrphanImport", at_byte(b"the name of import 1, counted from 0", 345)),
    (240, b"\x09", b"16 BadEntry", at_byte(b"the section of the main entry point", 237)),
    (248, b"\x09", b"16 BadEntry", at_byte(b"the section of the initialization routine", 245)),
    (256, b"\x09", b"16 BadEntry", at_byte(b"the section of the termination routine", 253)),
    (497, b"\x00\x05", b"20 BadExportSection", at_byte(b"the section of export 2, counted from 0", 497)),
    (377, b"\x90\x00", b"33 RepeatTooFar", at_halfword(0, 1, 377)),
    (407, b"\x90\x00", b"34 RepeatCuts", at_halfword(15, 1, 407)),
    (377, b"\x40\x00\x90\x00\x91\x00", b"35 NestedRepeat", at_halfword(2, 1, 381)),
    (403, b"\x90\x01", b"35 NestedRepeat", at_halfword(13, 1, 403)),
    (377, b"\x80\x00\x80\x00\x80\x00\x80\x00\xB0\xFF\xFF\xFF", b"36 TooManySteps", at_halfword(4, 1, 385)),
)

CASES += [
    Case(f"{error.decode()} by {other.hex()} at {at} of {name}", ["list", "a"], {"a": changed(container, (at, other))}, **refused(error, where))
    for name, container, rows in (("vectors", VECTORS, DAMAGED_VECTORS), ("rich", RICH, DAMAGED_RICH))
    for at, other, error, where in rows
]
