"""`pef link`: containers byte for byte, and errors, after which no file has changed."""
from data import containers
from data.refusals import FOLDER, MISSING, READ_FOLDER, refused
from data.scripts import EXAMPLE, EXAMPLE_LINKED, VECTORS, VECTORS_LINKED
from suite import Case, changed, from_hex

# A section of three bytes, two of which are there.
SHORT = b"section d data process 4 3\nbytes d aAfF"
SHORT_CONTAINER = from_hex("""
    # the container header, and the section headers: data, loader
    4A 6F 79 21 70 65 66 66 70 77 70 63 00 00 00 01
    00 00 00 00 00 00 00 00 00 00 00 00 00 00 00 00
    00 02 00 01 00 00 00 00
    FF FF FF FF 00 00 00 00 00 00 00 03 00 00 00 02
    00 00 00 02 00 00 00 60 01 01 04 00
    FF FF FF FF 00 00 00 00 00 00 00 00 00 00 00 00
    00 00 00 3C 00 00 00 70 04 04 04 00
    # the image, and zeros up to a multiple of 16
    AA FF 00 00 00 00 00 00 00 00 00 00 00 00 00 00
    # the loader header, and a slot
    FF FF FF FF 00 00 00 00 FF FF FF FF 00 00 00 00
    FF FF FF FF 00 00 00 00 00 00 00 00 00 00 00 00
    00 00 00 00 00 00 00 38 00 00 00 38 00 00 00 38
    00 00 00 00 00 00 00 00 00 00 00 00
""")


class WithAnyProgram:
    """The container of `EXAMPLE`, with any program of three halfwords: there are several, and which one is linked is open."""

    def __eq__(self, other):
        return len(other) == 192 and other[:180] + other[186:] == containers.EXAMPLE[:180] + containers.EXAMPLE[186:]

# A section with two fixups side by side, of which one instruction makes both.
SIDE_BY_SIDE = b"""\
section d data process 4 16
bytes d 11223344000000080102
fix d 0 section d
fix d 4 section d
"""
# The same with its contents in another order.
FALLING = b"""\
section d data process 4 16
fix d 4 section d
bytes d 112233440000
fix d 0 section d
bytes d 00080102
"""
SIDE_BY_SIDE_CONTAINER = from_hex("""
    4A 6F 79 21 70 65 66 66 70 77 70 63 00 00 00 01
    00 00 00 00 00 00 00 00 00 00 00 00 00 00 00 00
    00 02 00 01 00 00 00 00 FF FF FF FF 00 00 00 00
    00 00 00 10 00 00 00 0A 00 00 00 0A 00 00 00 60
    01 01 04 00 FF FF FF FF 00 00 00 00 00 00 00 00
    00 00 00 00 00 00 00 4C 00 00 00 70 04 04 04 00
    11 22 33 44 00 00 00 08 01 02 00 00 00 00 00 00
    FF FF FF FF 00 00 00 00 FF FF FF FF 00 00 00 00
    FF FF FF FF 00 00 00 00 00 00 00 00 00 00 00 00
    00 00 00 01 00 00 00 44 00 00 00 46 00 00 00 48
    00 00 00 00 00 00 00 00 00 00 00 00 00 00 00 01
    00 00 00 00 40 01 00 00 00 00 00 00
""")
# The same with `pattern` for `data`: the kind and the raw bytes differ.
PACKED_CONTAINER = changed(SIDE_BY_SIDE_CONTAINER, (64, b"\x02"), (96, from_hex("24 11 22 33 44 03 23 08 01 02")))

# A fragment that passes on an import.
PASSED = b"""\
versions 1 0 0
library L 1 0 -
import v data strong
section m data process 4 4
reexport u data v
"""
PASSED_CONTAINER = from_hex("""
    # container header: version 1, one section and the loader section
    4A 6F 79 21 70 65 66 66 70 77 70 63 00 00 00 01
    00 00 00 00 00 00 00 00 00 00 00 00 00 00 00 01
    00 02 00 01 00 00 00 00
    # section headers: data of four bytes without an image, and the loader, both at 96
    FF FF FF FF 00 00 00 00 00 00 00 04 00 00 00 00
    00 00 00 00 00 00 00 60 01 01 04 00 FF FF FF FF
    00 00 00 00 00 00 00 00 00 00 00 00 00 00 00 6E
    00 00 00 60 04 04 04 00
    # loader header: no entry points, one library, one import, no program, one export
    FF FF FF FF 00 00 00 00 FF FF FF FF 00 00 00 00
    FF FF FF FF 00 00 00 00 00 00 00 01 00 00 00 01
    00 00 00 00 00 00 00 54 00 00 00 54 00 00 00 5C
    00 00 00 00 00 00 00 01
    # the library `L` of version 1, whose one import is the first, and the import `v`
    00 00 00 00 00 00 00 00 00 00 00 01 00 00 00 01
    00 00 00 00 00 00 00 00 01 00 00 02
    # the names `L`, `v` and `u`, and three zeros
    4C 00 76 00 75 00 00 00
    # a slot of one key, the key, and the export: import 0, passed on
    00 04 00 00 00 01 00 75 01 00 00 04 00 00 00 00
    FF FD
""")

# The same with a second import, which is passed on, and a number.
ABSOLUTE = b"""\
versions 1 0 0
library L 1 0 -
import v data strong
import w code weak
section m data process 4 4
absolute k tvector 0x89ABCDEF
reexport u glue w
"""
ABSOLUTE_CONTAINER = from_hex("""
    # container header: version 1, one section and the loader section
    4A 6F 79 21 70 65 66 66 70 77 70 63 00 00 00 01
    00 00 00 00 00 00 00 00 00 00 00 00 00 00 00 01
    00 02 00 01 00 00 00 00
    # section headers
    FF FF FF FF 00 00 00 00 00 00 00 04 00 00 00 00
    00 00 00 00 00 00 00 60 01 01 04 00 FF FF FF FF
    00 00 00 00 00 00 00 00 00 00 00 00 00 00 00 80
    00 00 00 60 04 04 04 00
    # loader header: one library, two imports, two exports
    FF FF FF FF 00 00 00 00 FF FF FF FF 00 00 00 00
    FF FF FF FF 00 00 00 00 00 00 00 01 00 00 00 02
    00 00 00 00 00 00 00 58 00 00 00 58 00 00 00 60
    00 00 00 00 00 00 00 02
    # the library, and its imports `v` and `w`, of which the second is weak
    00 00 00 00 00 00 00 00 00 00 00 01 00 00 00 02
    00 00 00 00 00 00 00 00 01 00 00 02 80 00 00 04
    # the names `L`, `v`, `w`, `k` and `u`
    4C 00 76 00 77 00 6B 75
    # a slot of two keys, the keys, and the exports: the number, and import 1, passed on
    00 08 00 00 00 01 00 6B 00 01 00 75 02 00 00 06
    89 AB CD EF FF FE 04 00 00 07 00 00 00 01 FF FD
""")

# Libraries with and without imports, ten exports, and no main entry point.
WHOLE = b"""\
versions 3 1 2
library First 16 1 -
import one code strong
import two data weak
library Idle 2 0 weak
library Last 5 4 weak,before
import three tvector weak
import four toc strong
import five glue strong
section text code global 4 12
section vars data process 3 20
bytes text 0102030405060708090A0B0C
bytes vars 0000000001
fix vars 0 import two
tvector vars 4 text vars
fix vars 12 import five
export a code text 0
export b tvector vars 2
export c code text 2
export d tvector vars 6
export e code text 4
export f tvector vars 10
export g code text 6
export h tvector vars 14
export i code text 8
export j tvector vars 18
init vars 8
term text 4
"""
WHOLE_CONTAINER = from_hex("""
    # container header: versions 3, 1 and 2, two sections and the loader section
    4A 6F 79 21 70 65 66 66 70 77 70 63 00 00 00 01
    00 00 00 00 00 00 00 01 00 00 00 02 00 00 00 03
    00 03 00 02 00 00 00 00
    # section headers: code, data, loader
    FF FF FF FF 00 00 00 00 00 00 00 0C 00 00 00 0C
    00 00 00 0C 00 00 00 80 00 04 04 00 FF FF FF FF
    00 00 00 00 00 00 00 14 00 00 00 05 00 00 00 05
    00 00 00 90 01 01 03 00 FF FF FF FF 00 00 00 00
    00 00 00 00 00 00 00 00 00 00 01 6C 00 00 00 A0
    04 04 04 00
    # zeros up to a multiple of 16, and the images
    00 00 00 00 01 02 03 04 05 06 07 08 09 0A 0B 0C
    00 00 00 00 00 00 00 00 01 00 00 00 00 00 00 00
    00 00 00 00
    # loader header: init and term, three libraries, five imports, one program, ten exports
    FF FF FF FF 00 00 00 00 00 00 00 01 00 00 00 08
    00 00 00 00 00 00 00 04 00 00 00 03 00 00 00 05
    00 00 00 01 00 00 00 A0 00 00 00 A6 00 00 00 D8
    00 00 00 01 00 00 00 0A
    # libraries: the one without imports has the number of those before it
    00 00 00 00 00 00 00 01 00 00 00 10 00 00 00 02
    00 00 00 00 00 00 00 00 00 00 00 06 00 00 00 00
    00 00 00 02 00 00 00 00 00 00 00 02 40 00 00 00
    00 00 00 0B 00 00 00 04 00 00 00 05 00 00 00 03
    00 00 00 02 C0 00 00 00
    # imports: the class, plus 80 (hex) for the weak ones, and the offset of the name
    00 00 00 10 81 00 00 14 82 00 00 18 03 00 00 1E
    04 00 00 23
    # the program of section 1: import 1, sections 0 and 1, import 4
    00 01 00 00 00 00 00 03 00 00 00 00 60 01 46 00
    60 04
    # the names of libraries and imports, and of exports in the order of their keys
    46 69 72 73 74 00 49 64 6C 65 00 4C 61 73 74 00
    6F 6E 65 00 74 77 6F 00 74 68 72 65 65 00 66 6F
    75 72 00 66 69 76 65 00 63 64 67 68 61 62 65 66
    69 6A
    # two slots, and the keys of c, d, g and h, then of a, b, e, f, i and j
    00 10 00 00 00 18 00 04 00 01 00 63 00 01 00 64
    00 01 00 67 00 01 00 68 00 01 00 61 00 01 00 62
    00 01 00 65 00 01 00 66 00 01 00 69 00 01 00 6A
    # exports: class and offset of the name, offset, section
    00 00 00 28 00 00 00 02 00 00 02 00 00 29 00 00
    00 06 00 01 00 00 00 2A 00 00 00 06 00 00 02 00
    00 2B 00 00 00 0E 00 01 00 00 00 2C 00 00 00 00
    00 00 02 00 00 2D 00 00 00 02 00 01 00 00 00 2E
    00 00 00 04 00 00 02 00 00 2F 00 00 00 0A 00 01
    00 00 00 30 00 00 00 08 00 00 02 00 00 31 00 00
    00 12 00 01
""")

# The line of an export, and the end of its container: the value and the section.
EXPORTED = [
    (b"export u data m 4\n", "00000004 0000"),
    (b"reexport u data w\n", "00000001 FFFD"),
    (b"absolute u data 0x2A\n", "0000002A FFFE"),
    (b"absolute u data 0xFFFFFFFF\n", "FFFFFFFF FFFE"),
]
EXPORTING = b"library L 1 0 -\nimport v data strong\nimport w data weak\nsection m data process 4 4\n"


class EndingWith:
    """A container of 210 bytes that is known by its end. Its exports and their table begin at 192."""

    def __init__(self, end):
        self.end = end

    def __eq__(self, other):
        return other.startswith(b"Joy!peffpwpc") and other.endswith(self.end)


CASES = [
    Case("transition vectors", ["link", "a", "out"], {"a": VECTORS}, stdout=VECTORS_LINKED, after={"out": containers.VECTORS}),
    Case("over the script", ["link", "a", "a"], {"a": VECTORS}, stdout=VECTORS_LINKED, after={"a": containers.VECTORS}),
    Case("over another file", ["link", "a", "out"], {"a": b"", "out": VECTORS}, stdout=b"linked 140 bytes\n", after={"out": containers.EMPTY}),
    Case("an empty script", ["link", "a", "out"], {"a": b""}, stdout=b"linked 140 bytes\n", after={"out": containers.EMPTY}),
    Case("three bytes", ["link", "a", "out"], {"a": SHORT}, stdout=b"linked 172 bytes\nsection 0 length 0\n", after={"out": SHORT_CONTAINER}),
    Case("two fixups", ["link", "a", "out"], {"a": EXAMPLE}, VECTORS, stdout=EXAMPLE_LINKED, after={"out": WithAnyProgram()}),
    Case("no file", ["link", "missing", "out"], {"a": EXAMPLE}, **refused(b"71 FileUnreadable missing", MISSING)),
    Case("no file with an odd name", ["link", "a b%\u00E9~!".encode(), "out"], {"a": EXAMPLE}, **refused(b"71 FileUnreadable a%20b%25%C3%A9~!", MISSING)),
    Case("an empty path", ["link", "", "out"], {"a": EXAMPLE}, **refused(b"71 FileUnreadable ", MISSING)),
    Case("a folder", ["link", "d", "out"], {"d": None}, **refused(b"71 FileUnreadable d", READ_FOLDER)),
    Case("no folder for the container", ["link", "a", "no folder/b"], {"a": EXAMPLE}, **refused(b"72 FileUnwritable no%20folder/b", MISSING)),
    Case("over a folder", ["link", "a", "d"], {"a": EXAMPLE, "d": None}, **refused(b"72 FileUnwritable d", FOLDER)),
    Case(
        "an error in the script", ["link", "a", "out"],
        {"a": b"section d data process 4 8\nfix d 0 section d\nfix d 2 section d\n", "out": b"text"},
        **refused(b"46 Overlap line 3", b"It overlaps a word that line 2 fills.\n    fix d 2 section d\n          ^\n"),
    ),
]

# Scripts, their containers, and how many halfwords the program of each section has.
LINKED = (
    ("fixups side by side", SIDE_BY_SIDE, SIDE_BY_SIDE_CONTAINER, [1]),
    ("contents in another order", FALLING, SIDE_BY_SIDE_CONTAINER, [1]),
    ("a packed section", SIDE_BY_SIDE.replace(b" data ", b" pattern "), PACKED_CONTAINER, [1]),
    ("an import that is passed on", PASSED, PASSED_CONTAINER, [0]),
    ("a number, and an import that is passed on", ABSOLUTE, ABSOLUTE_CONTAINER, [0]),
    ("ten exports", WHOLE, WHOLE_CONTAINER, [0, 3]),
)


def printed(container, lengths):
    return b"linked %d bytes\n" % len(container) + b"".join(b"section %d length %d\n" % row for row in enumerate(lengths))


CASES += [
    Case(name, ["link", "a", "out"], {"a": script}, stdout=printed(container, lengths), after={"out": container})
    for name, script, container, lengths in LINKED
]
CASES += [
    Case(line.decode().strip(), ["link", "a", "out"], {"a": EXPORTING + line}, stdout=b"linked 210 bytes\nsection 0 length 0\n", after={"out": EndingWith(from_hex(end))})
    for line, end in EXPORTED
]
