"""Containers with changed words: the first error with its place, or that there is none. The offsets were counted by hand."""
import dataclasses
import struct

from data import containers
from data.refusals import at_byte, refused
from suite import changed, from_hex

VECTORS, RICH, SPELLED, TWICE = containers.VECTORS, containers.RICH, containers.SPELLED, containers.TWICE

# A loader section of 127 bytes from byte 68 on: its header, then the libraries at 124 and 148, the imports at 172, 176 and 180, and the
# strings at 184. Library `L` has imports 0 and 1, `v` and the weak `w`, and library `M` has imports 1 and 2, `w` and `xy`.
LIBRARIES = from_hex("""
    4A 6F 79 21 70 65 66 66 70 77 70 63 00 00 00 01
    00 00 00 00 00 00 00 00 00 00 00 00 00 00 00 00
    00 01 00 00 00 00 00 00 FF FF FF FF 00 00 00 00
    00 00 00 00 00 00 00 00 00 00 00 7F 00 00 00 44
    04 04 04 00 FF FF FF FF 00 00 00 00 FF FF FF FF
    00 00 00 00 FF FF FF FF 00 00 00 00 00 00 00 02
    00 00 00 03 00 00 00 00 00 00 00 74 00 00 00 74
    00 00 00 7F 00 00 00 00 00 00 00 00 00 00 00 00
    00 00 00 03 00 00 00 05 00 00 00 02 00 00 00 00
    40 00 00 00 00 00 00 02 00 00 00 00 00 00 00 01
    00 00 00 02 00 00 00 01 80 00 00 00 01 00 00 04
    82 00 00 06 14 00 00 08 4C 00 4D 00 76 00 77 00
    78 79 00
""")

# A loader section from byte 68 on, with two absolute exports, `a` and `b`: the slot is at 124, the keys at 128 and 132, the exports at
# 136 and 146, and the strings at 156.
TWO_EXPORTS = from_hex("""
    4A 6F 79 21 70 65 66 66 70 77 70 63 00 00 00 01
    00 00 00 00 00 00 00 00 00 00 00 00 00 00 00 00
    00 01 00 00 00 00 00 00 FF FF FF FF 00 00 00 00
    00 00 00 00 00 00 00 00 00 00 00 5A 00 00 00 44
    04 04 04 00 FF FF FF FF 00 00 00 00 FF FF FF FF
    00 00 00 00 FF FF FF FF 00 00 00 00 00 00 00 00
    00 00 00 00 00 00 00 00 00 00 00 38 00 00 00 58
    00 00 00 38 00 00 00 00 00 00 00 02 00 08 00 00
    00 01 00 00 00 01 00 00 00 00 00 00 00 00 00 00
    FF FE 00 00 00 01 00 00 00 00 FF FE 61 62
""")

# The parts, by their numbers for C.
HEADER, SECTION, LOADER, LIBRARY, IMPORT, MAIN, INIT, TERM, RELOCATION, EXPORT, PACKED, PROGRAM = range(1, 13)

# The words for a field, by the part and the offset in it. If there are several such parts, the number of one follows.
FIELDS = {
    (HEADER, 0): b"the tag of the container header",
    (HEADER, 8): b"the architecture in the container header",
    (HEADER, 12): b"the version of the format in the container header",
    (HEADER, 34): b"the number of instantiated sections in the container header",
    (SECTION, 12): b"the size of the image of section %d, counted from 0",
    (SECTION, 20): b"the offset of the raw data of section %d, counted from 0",
    (SECTION, 24): b"the kind of section %d, counted from 0",
    (SECTION, 26): b"the alignment of section %d, counted from 0",
    (LOADER, 0): b"the loader header",
    (LOADER, 24): b"the number of libraries in the loader header",
    (LOADER, 44): b"the offset of the export hash table in the loader header",
    (LIBRARY, 0): b"the name of library %d, counted from 0",
    (LIBRARY, 16): b"the first import of library %d, counted from 0",
    (IMPORT, 0): b"the name of import %d, counted from 0",
    (MAIN, 0): b"the section of the main entry point",
    (INIT, 0): b"the section of the initialization routine",
    (TERM, 0): b"the section of the termination routine",
    (RELOCATION, 0): b"the section of relocation header %d, counted from 0",
    (RELOCATION, 4): b"the number of halfwords of relocation header %d, counted from 0",
    (EXPORT, 0): b"the name of export %d, counted from 0",
    (EXPORT, 8): b"the section of export %d, counted from 0",
}

NAMES = {
    1: "TooShort", 2: "BadTag", 3: "BadArchitecture", 4: "BadFormatVersion", 5: "BadSectionCounts", 6: "SectionOutside",
    7: "BadSectionKind", 8: "BadSizes", 9: "BadAlignment", 10: "NoLoader", 11: "LoaderShort", 12: "BadTableOffset", 13: "BadName",
    14: "BadLibraryRange", 15: "OrphanImport", 16: "BadEntry", 17: "BadRelocSection", 18: "RelocOutside", 19: "BadExportTable",
    20: "BadExportSection", 31: "BadOpcode",
}


@dataclasses.dataclass(frozen=True)
class Error:
    """The first error of a container with other words at some offsets.

    place: none, or the part, its row, the offset of the field in it, and that in the container.
    section: the section of the relocation header, if the part is a program.
    """

    base: bytes
    words: tuple
    number: int
    place: tuple = ()
    section: int = 0

    @property
    def contents(self):
        return with_words(self.base, self.words)

    @property
    def where(self):
        """The sentence on the place, as the standard error has it."""
        if not self.place:
            return b""
        part, row, field, offset = self.place
        if part == PROGRAM:
            words = b"at halfword %d of the program of relocation header %d, both counted from 0, which is for section %d"
            return at_byte(words % (field // 2, row, self.section), offset)
        words = FIELDS[part, field]
        return at_byte(words % row if b"%d" in words else words, offset)

    @property
    def printed(self):
        """Both outputs of `pef list`, and its status."""
        return refused(f"{self.number} {NAMES[self.number]}".encode(), self.where)


def with_words(contents, words):
    return changed(contents, *((at, struct.pack(">I", word)) for at, word in words))


# The section headers are at 40, 68 and 96. At 12 in one is the size of the image, at 16 that of the raw data, at 20 their offset, and from
# 24 on the kind, the share kind and the alignment.
CONTAINERS = [
    # Eight headers end at 264, seven at 236.
    Error(VECTORS, ((32, 0x00080002),), 1),
    Error(VECTORS, ((4, 0x70656667),), 2, (HEADER, 0, 0, 0)),
    Error(VECTORS, ((8, 0x6D36386B),), 3, (HEADER, 0, 8, 8)),
    Error(VECTORS, ((12, 2),), 4, (HEADER, 0, 12, 12)),
    Error(VECTORS, ((32, 0x00030004),), 5, (HEADER, 0, 34, 34)),
    Error(VECTORS, ((116, 0xA1),), 6, (SECTION, 2, 20, 116)),
    Error(VECTORS, ((92, 0x04010400),), 7, (SECTION, 1, 24, 92)),
    Error(VECTORS, ((80, 17),), 8, (SECTION, 1, 12, 80)),
    Error(VECTORS, ((52, 9),), 8, (SECTION, 0, 12, 52)),
    Error(VECTORS, ((92, 0x01012000),), 9, (SECTION, 1, 26, 94)),
    Error(VECTORS, ((120, 0x05040400),), 10),
    # Of two errors the first one in the order of the tests.
    Error(VECTORS, ((8, 0), (12, 0)), 3, (HEADER, 0, 8, 8)),
    Error(VECTORS, ((12, 2), (32, 0x00030004)), 4, (HEADER, 0, 12, 12)),
    Error(VECTORS, ((32, 0x00080009),), 5, (HEADER, 0, 34, 34)),
    Error(VECTORS, ((32, 0x00070002),), 6, (SECTION, 4, 20, 172)),
    Error(VECTORS, ((60, 0xFFFFFFFF), (64, 0x04042000)), 6, (SECTION, 0, 20, 60)),
    Error(VECTORS, ((64, 0x04042000),), 7, (SECTION, 0, 24, 64)),
    Error(VECTORS, ((80, 17), (92, 0x01012000)), 8, (SECTION, 1, 12, 80)),
    Error(VECTORS, ((64, 0x00042000), (92, 0x04010400)), 9, (SECTION, 0, 26, 66)),
    Error(VECTORS, ((92, 0x01012000), (120, 0x05040400)), 9, (SECTION, 1, 26, 94)),
]

# The loader section is at 160, the relocation header at 216, the slot at 232, the key at 236 and the export at 240.
LOADERS = [
    Error(VECTORS, ((112, 55),), 11, (LOADER, 0, 0, 160)),
    Error(VECTORS, ((112, 0),), 11, (LOADER, 0, 0, 160)),
    Error(VECTORS, ((112, 67),), 12, (LOADER, 0, 24, 184)),
    Error(VECTORS, ((184, 0xFFFFFFFF),), 12, (LOADER, 0, 24, 184)),
    Error(VECTORS, ((192, 3),), 12, (LOADER, 0, 24, 184)),
    Error(VECTORS, ((184, 0xFFFFFFFF), (160, 2)), 12, (LOADER, 0, 24, 184)),
    Error(VECTORS, ((160, 2),), 16, (MAIN, 0, 0, 160)),
    Error(VECTORS, ((168, 3),), 16, (INIT, 0, 0, 168)),
    Error(VECTORS, ((176, 4),), 16, (TERM, 0, 0, 176)),
    Error(VECTORS, ((176, 0x80000000),), 16, (TERM, 0, 0, 176)),
    Error(VECTORS, ((160, 2), (216, 0x00020000)), 16, (MAIN, 0, 0, 160)),
    Error(VECTORS, ((216, 0x00020000),), 17, (RELOCATION, 0, 0, 216)),
    Error(VECTORS, ((216, 0x00020000), (220, 0xFFFFFFFF)), 17, (RELOCATION, 0, 0, 216)),
    # From the program on the loader section has 22 bytes.
    Error(VECTORS, ((220, 12),), 18, (RELOCATION, 0, 4, 220)),
    Error(VECTORS, ((220, 0), (224, 23)), 18, (RELOCATION, 0, 4, 220)),
    Error(VECTORS, ((220, 12), (208, 31)), 18, (RELOCATION, 0, 4, 220)),
    # With two relocation headers the second is at 228.
    Error(VECTORS, ((192, 2), (228, 0x00070000)), 17, (RELOCATION, 1, 0, 228)),
    Error(VECTORS, ((192, 2), (228, 0x00010000), (232, 13)), 18, (RELOCATION, 1, 4, 232)),
    Error(VECTORS, ((204, 0xFFFFFFFF),), 19, (LOADER, 0, 44, 204)),
    Error(VECTORS, ((208, 31),), 19, (LOADER, 0, 44, 204)),
    Error(VECTORS, ((208, 1),), 19, (LOADER, 0, 44, 204)),
    # A name without bytes is outside, too. From the strings on the loader section has 20 bytes.
    Error(VECTORS, ((200, 0xFFFFFFFF),), 13, (EXPORT, 0, 0, 240)),
    Error(VECTORS, ((200, 0xFFFFFFFF), (236, 0)), 13, (EXPORT, 0, 0, 240)),
    Error(VECTORS, ((236, 0x00150000),), 13, (EXPORT, 0, 0, 240)),
    Error(VECTORS, ((236, 0x00150000), (246, 0xFFFF)), 13, (EXPORT, 0, 0, 240)),
    Error(VECTORS, ((246, 0xFFFF),), 20, (EXPORT, 0, 8, 248)),
    # From the strings on that loader section has 11 bytes.
    Error(LIBRARIES, ((124, 11),), 13, (LIBRARY, 0, 0, 124)),
    Error(LIBRARIES, ((148, 12),), 13, (LIBRARY, 1, 0, 148)),
    Error(LIBRARIES, ((164, 2),), 14, (LIBRARY, 1, 16, 164)),
    Error(LIBRARIES, ((160, 0), (164, 4)), 14, (LIBRARY, 1, 16, 164)),
    Error(LIBRARIES, ((136, 4), (148, 11)), 14, (LIBRARY, 0, 16, 140)),
    Error(LIBRARIES, ((148, 11), (164, 2)), 13, (LIBRARY, 1, 0, 148)),
    Error(LIBRARIES, ((172, 0x0100000B),), 13, (IMPORT, 0, 0, 172)),
    Error(LIBRARIES, ((176, 0x8200000D),), 13, (IMPORT, 1, 0, 176)),
    # The last byte isn't zero.
    Error(LIBRARIES, ((191, 0x00787901),), 13, (IMPORT, 2, 0, 180)),
    # Import 2 is in no range.
    Error(LIBRARIES, ((160, 1),), 15, (IMPORT, 2, 0, 180)),
    Error(LIBRARIES, ((160, 1), (180, 0x0100000B)), 13, (IMPORT, 2, 0, 180)),
    Error(LIBRARIES, ((140, 1), (176, 0x0100000B)), 15, (IMPORT, 0, 0, 172)),
    Error(LIBRARIES, ((136, 4), (172, 0x0100000B)), 14, (LIBRARY, 0, 16, 140)),
    Error(LIBRARIES, ((160, 1), (68, 0)), 15, (IMPORT, 2, 0, 180)),
    # Ranges with a gap.
    Error(LIBRARIES, ((136, 1), (160, 1), (164, 2)), 15, (IMPORT, 1, 0, 176)),
    Error(LIBRARIES, ((96, 0), (124, 11)), 13, (LIBRARY, 0, 0, 124)),
    # Without imports the relocation headers begin at 172. There is no section for one.
    Error(LIBRARIES, ((136, 0), (140, 0), (160, 0), (164, 0), (96, 0), (100, 1)), 17, (RELOCATION, 0, 0, 172)),
    Error(TWO_EXPORTS, ((146, 2),), 13, (EXPORT, 1, 0, 146)),
    Error(TWO_EXPORTS, ((154, 0x00036162),), 20, (EXPORT, 1, 8, 154)),
    Error(TWO_EXPORTS, ((142, 5),), 20, (EXPORT, 0, 8, 144)),
]

# Where parts are in containers with several of them, and where loader sections begin. The loader section of `RICH` is at 237, that of
# `SPELLED` and of `TWICE` at 112.
PARTS = [
    Error(RICH, ((293, 0xFFFFFFFF),), 13, (LIBRARY, 0, 0, 293)),
    Error(RICH, ((341, 0x02FFFFFF),), 13, (IMPORT, 0, 0, 341)),
    Error(RICH, ((349, 0x84FFFFFF),), 13, (IMPORT, 2, 0, 349)),
    Error(RICH, ((469, 0x02FFFFFF),), 13, (EXPORT, 0, 0, 469)),
    Error(RICH, ((479, 0x00FFFFFF),), 13, (EXPORT, 1, 0, 479)),
    Error(RICH, ((309, 0xFFFFFFFF),), 14, (LIBRARY, 0, 16, 309)),
    Error(RICH, ((305, 1),), 15, (IMPORT, 1, 0, 345)),
    Error(RICH, ((353, 0x00050000),), 17, (RELOCATION, 0, 0, 353)),
    # The programs begin at 377 and 429. The second gets its first halfword, which are two letters of a name.
    Error(RICH, ((377, 0x4C004001),), 31, (PROGRAM, 0, 0, 377), section=1),
    Error(RICH, ((425, 0x40004C00),), 31, (PROGRAM, 0, 50, 427), section=1),
    Error(RICH, ((369, 1),), 31, (PROGRAM, 1, 0, 429), section=0),
    Error(SPELLED, ((112, 9),), 16, (MAIN, 0, 0, 112)),
    Error(SPELLED, ((128, 9),), 16, (TERM, 0, 0, 128)),
    Error(SPELLED, ((188, 0x000C4C00),), 31, (PROGRAM, 0, 10, 190), section=0),
    Error(TWICE, ((112, 9),), 16, (MAIN, 0, 0, 112)),
    Error(TWICE, ((180, 0x00090000),), 17, (RELOCATION, 1, 0, 180)),
    Error(TWICE, ((194, 0x00044C00),), 31, (PROGRAM, 0, 4, 196), section=0),
    # The loader section has 56 bytes from 80 on, and its header counts as many relocation headers.
    Error(VECTORS, ((112, 56), (116, 80)), 12, (LOADER, 0, 24, 104)),
    # Without raw bytes the offset may be after the end.
    Error(VECTORS, ((112, 0), (116, 0xFFFFFFFF)), 11, (LOADER, 0, 0, 0xFFFFFFFF)),
    # Section 1 isn't instantiated, and isn't a loader section.
    Error(VECTORS, ((32, 0x00030001),), 16, (MAIN, 0, 0, 160)),
    # Of two loader sections the first one is used: section 2 at 160, and then section 1, of 16 bytes at 144.
    Error(VECTORS, ((32, 0x00040002), (144, 200), (148, 0x04000000), (160, 9)), 16, (MAIN, 0, 0, 160)),
    Error(VECTORS, ((32, 0x00030001), (92, 0x04010400)), 11, (LOADER, 0, 0, 144)),
]

ERRORS = CONTAINERS + LOADERS + PARTS

# Containers whose headers and loader section can be read.
SOUND = [
    (VECTORS, ()),
    # Sections that aren't instantiated may have any kind, share kind and alignment.
    (VECTORS, ((32, 0x00040002),)),
    (VECTORS, ((32, 0x00040002), (148, 0x09FFFFFF))),
    # Pattern-initialized data without raw bytes.
    (VECTORS, ((92, 0x02010400), (84, 0))),
    # Programs up to the end of the loader section, and a name.
    (VECTORS, ((220, 11),)),
    (VECTORS, ((220, 0), (224, 22))),
    (VECTORS, ((236, 0x00140000),)),
    # Names whose zero byte is the last byte, and ranges that follow each other.
    (LIBRARIES, ()),
    (LIBRARIES, ((124, 10),)),
    (LIBRARIES, ((172, 0x0100000A),)),
    (LIBRARIES, ((160, 1), (164, 2))),
    (TWO_EXPORTS, ()),
]
