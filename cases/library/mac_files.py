"""Files of the classic Mac OS, whole and damaged: what they are, their forks, resources and fragments, and the containers in them. The files
are written by hand from the tables of docs/FORMATS.md, section 10."""
import binascii
import ctypes

from mac_binary import mac_binary

from data.containers import VECTORS
from data.mac_files import FRAGMENT_FORK, fragment_file, resource_fork
from suite import changed

# A file in MacBinary III of 512 bytes.
MAC_BINARY = changed(
    bytes(512),
    (1, b"\x04Calc"),
    (65, b"APPLCalc"),
    (73, b"\x21"),
    (75, b"\xFF\xFE\x00\x14\x00\x07"),
    (81, b"\x01"),
    (83, b"\x00\x00\x00\x05\x00\x00\x00\x03"),
    (91, b"\xB0\x00\x00\x01\xB0\x00\x00\x02"),
    (99, b"\x00\x02"),
    (101, b"\x40"),
    (102, b"mBIN\x01\x80"),
    (116, b"\x00\x00\x01\x00"),
    (120, b"\x00\x00\x82\x81"),
    (124, b"\x9B\xDF"),
    (128, b"DATA!"),
    (256, b"RES"),
    (384, b"Hi"),
)

# A file in AppleSingle of 201 bytes with nine entries: the name, Finder information, the data fork, the resource fork, a second data fork,
# an entry of an unknown id, dates, attributes and the comment. The rows end at 134.
APPLE = changed(
    bytes(201),
    (0, b"\x00\x05\x16\x00\x00\x02\x00\x00Macintosh       \x00\x09"),
    (26, b"\x00\x00\x00\x03\x00\x00\x00\x86\x00\x00\x00\x04"),
    (38, b"\x00\x00\x00\x09\x00\x00\x00\x8A\x00\x00\x00\x20"),
    (50, b"\x00\x00\x00\x01\x00\x00\x00\xAA\x00\x00\x00\x05"),
    (62, b"\x00\x00\x00\x02\x00\x00\x00\xAF\x00\x00\x00\x03"),
    (74, b"\x00\x00\x00\x01\x00\x00\x00\xB2\x00\x00\x00\x01"),
    (86, b"\x00\x00\x00\x0F\xFF\xFF\xFF\xFF\x00\x00\x00\x00"),
    (98, b"\x00\x00\x00\x08\x00\x00\x00\xB3\x00\x00\x00\x10"),
    (110, b"\x00\x00\x00\x0A\x00\x00\x00\xC3\x00\x00\x00\x04"),
    (122, b"\x00\x00\x00\x04\x00\x00\x00\xC7\x00\x00\x00\x02"),
    (134, b"Calc"),
    (138, b"APPLCalc\x21\x40\xFF\xFE\x00\x14\x00\x07"),
    (170, b"DATA!"),
    (175, b"RES"),
    (178, b"?"),
    (179, b"\x00\x00\x00\x01\xFF\xFF\xFF\xFE\x80\x00\x00\x00\x00\x00\x01\x00"),
    (195, b"\x80\x00\x00\x01"),
    (199, b"Hi"),
)

# A resource fork of 127 bytes. The data are at 16, 19 bytes, and the map is at 40, 87 bytes. The type list is at 28 of the map: `CODE` has
# one resource, whose reference is at 46, and `TEXT` has two, at 58 and 70. The names are at 82.
RESOURCES = changed(
    bytes(127),
    (0, b"\x00\x00\x00\x10\x00\x00\x00\x28\x00\x00\x00\x13\x00\x00\x00\x57"),
    (16, b"\x00\x00\x00\x04abcd\x00\x00\x00\x00\x00\x00\x00\x03xyz"),
    (40, b"\x00\x00\x00\x10\x00\x00\x00\x28\x00\x00\x00\x13\x00\x00\x00\x57"),
    (56, b"\x01\x02\x03\x04\x00\x05\x00\x80\x00\x1C\x00\x52"),
    (68, b"\x00\x01CODE\x00\x00\x00\x12TEXT\x00\x01\x00\x1E"),
    (86, b"\x00\x00\xFF\xFF\x00\x00\x00\x00\x00\x00\x00\x09"),
    (98, b"\xFF\xFF\x00\x00\x01\x00\x00\x08\x00\x00\x00\x00"),
    (110, b"\x00\x80\x00\x04\x20\x00\x00\x0C\x00\x00\x00\x00"),
    (122, b"\x03one\x00"),
)
CODE, TEXT = 0x434F4445, 0x54455854

# A table of three fragments, 242 bytes: `Calc` at 32 with an extension of 8 bytes and a byte of padding, `Lib` at 88 over the same bytes of
# the data fork, and one of 63 letters at 136 in a resource.
LETTERS = b"ABCDEFGHIJKLMNOPQRSTUVWXYZABCDEFGHIJKLMNOPQRSTUVWXYZABCDEFGHIJK"
FRAGMENTS = changed(
    bytes(242),
    (10, b"\x00\x01"),
    (30, b"\x00\x03"),
    (32, b"pwpc\x12\x34\x56\x07\x01\x20\x60\x03\x01\x00\x80\x00\x00\x01\x00\x00"),
    (52, b"\x00\x05\x01\x01\x00\x00\x00\x00\x00\x00\x00\x00\x00\x00\x00\x09\x00\x08"),
    (70, b"\x00\x01\x00\x38\x04Calc"),
    (88, b"pwpc"),
    (108, b"\x00\x00\x00\x01"),
    (128, b"\x00\x30\x03Lib"),
    (136, b"m68k"),
    (158, b"\x02\x02ndrv\x00\x00\x00\x80"),
    (176, b"\x00\x6A\x3F"),
    (179, LETTERS),
)

NOT_THERE = 201

# --- what a file is ---

KINDS = [
    ("MacBinary III", MAC_BINARY, "MAC_BINARY"),
    ("a first byte that isn't 0", changed(MAC_BINARY, (0, b"\x01")), "OTHER"),
    ("AppleSingle", APPLE, "APPLE_SINGLE"),
    ("AppleDouble", changed(APPLE, (3, b"\x07")), "APPLE_DOUBLE"),
    ("AppleSingle of version 3", changed(APPLE, (5, b"\x03")), "DAMAGED_APPLE"),
    ("a resource fork", RESOURCES, "RESOURCE_FORK"),
    ("a table of fragments", FRAGMENTS, "OTHER"),
    ("a container", VECTORS, "CONTAINER"),
    ("the header of a container", changed(bytes(40), (0, b"Joy!peff")), "CONTAINER"),
    ("such a header at 1", changed(bytes(40), (1, b"Joy!peff")), "OTHER"),
    ("39 bytes of a container", changed(bytes(39), (0, b"Joy!peff")), "OTHER"),
    ("no bytes", b"", "OTHER"),
]

# The CRC is right, so a file with fewer bytes was cut.
KINDS += [
    (f"{length} bytes of MacBinary", MAC_BINARY[:length], kind)
    for length, kind in ((0, "OTHER"), (127, "OTHER"), (128, "MAC_BINARY"), (258, "MAC_BINARY"), (259, "MAC_BINARY"), (512, "MAC_BINARY"))
]

# Whether data and map are inside, after the header and apart, and the type list is inside the map, after its fields.
KINDS += [
    (f"a resource fork with {changes}", changed(RESOURCES, *changes), kind)
    for changes, kind in (
        (((0, b"\xFF"),), "OTHER"),
        (((0, b"\x00\x00\x00\x0F"),), "OTHER"),
        (((0, b"\x00\x00\x00\x15"),), "RESOURCE_FORK"),
        (((0, b"\x00\x00\x00\x16"),), "OTHER"),
        (((4, b"\x00\x00\x00\x29"),), "OTHER"),
        (((8, b"\x00\x00\x00\x18"),), "RESOURCE_FORK"),
        (((8, b"\x00\x00\x00\x19"),), "OTHER"),
        (((12, b"\x00\x00\x00\x58"),), "OTHER"),
        (((64, b"\x00\x1B"),), "OTHER"),
        # the map begins where the data ends, and passes the end: the fork was cut
        (((4, b"\x00\x00\x00\x23"), (12, b"\x00\x00\x00\x5D")), "RESOURCE_FORK"),
        (((4, b"\x00\x00\x00\x24"), (12, b"\x00\x00\x00\x5D")), "OTHER"),
        # data after the map, of no length
        (((0, b"\x00\x00\x00\x7F"), (8, b"\x00\x00\x00\x00")), "RESOURCE_FORK"),
    )
]

# --- forks ---

# What is changed in MacBinary, whether the CRC is made right again, and the kind and the error of the header.
NO_EXTENSION = (99, bytes(10)), (116, bytes(12))
HEADERS = [
    # a wrong CRC with `mBIN`, with version 130 or 129, and with neither
    (((65, b"x"),), False, "MAC_BINARY", 81),
    (((124, b"\x9B\xDE"),), False, "MAC_BINARY", 81),
    (((102, b"mBIO"),), False, "MAC_BINARY", 81),
    (((102, b"mBIO"), (122, b"\x81")), False, "MAC_BINARY", 81),
    (((102, b"mBIO"), (122, b"\x80")), False, "OTHER", 0),
    # II, whatever its version, and I, which has no CRC
    (((102, b"mBIO"), (122, b"\x81")), True, "MAC_BINARY", 0),
    (((102, b"\x00\x00\x00\x00"), (122, b"\x00")), True, "MAC_BINARY", 0),
    (NO_EXTENSION, False, "MAC_BINARY", 0),
    ((*NO_EXTENSION, (127, b"\x01")), False, "OTHER", 0),
    # bytes that have to be 0
    (((0, b"\x01"),), True, "OTHER", 0),
    (((74, b"\x01"),), True, "OTHER", 0),
    (((82, b"\x01"),), True, "OTHER", 0),
    # names of 0, 1, 63 and 64 bytes
    (((1, b"\x00"),), True, "OTHER", 0),
    (((1, b"\x01"),), True, "MAC_BINARY", 0),
    (((1, b"\x3F"),), True, "MAC_BINARY", 0),
    (((1, b"\x40"),), True, "OTHER", 0),
    # forks that end with the file or past it: 384 and 256 bytes are left
    (((83, b"\x80\x00\x00\x00\x00\x00\x00\x00"),), True, "OTHER", 0),
    (((83, b"\x00\x00\x01\x80\x00\x00\x00\x00"),), True, "MAC_BINARY", 0),
    (((83, b"\x00\x00\x01\x81\x00\x00\x00\x00"),), True, "MAC_BINARY", 0),
    (((87, b"\x00\x00\x01\x00"),), True, "MAC_BINARY", 0),
    (((87, b"\x00\x00\x01\x01"),), True, "MAC_BINARY", 0),
    # .. which MacBinary I can't have
    ((*NO_EXTENSION, (87, b"\x00\x00\x01\x01")), False, "OTHER", 0),
    (((87, b"\x80\x00\x00\x00"),), True, "OTHER", 0),
    # no forks at all
    (((83, b"\x00\x00\x00\x00\x00\x00\x00\x00"),), True, "MAC_BINARY", 0),
]

# Files, and what their forks, their names and their comments are: the offset and the bytes, or an error and its offset.
NONE = NOT_THERE, None
FORKS = [
    # The CRC is wrong, and the forks are read all the same. The comment passes the end.
    (
        "a second header", changed(bytes(515), (0, MAC_BINARY), (120, b"\x00\x82"), (124, bytes(2)), (384, b"DATA!"), (512, b"RES")),
        (81, 124), {"data_fork": (384, b"DATA!"), "resource_fork": (512, b"RES"), "comment": (78, 99)},
    ),
    # The last byte of the resource fork is gone, and so is the comment.
    ("a file that was cut", MAC_BINARY[:258], (0, None), {"data_fork": (128, b"DATA!"), "resource_fork": (77, 87), "comment": (78, 99)}),
    ("a file that was cut in its data fork", MAC_BINARY[:131], (0, None), {"data_fork": (76, 83), "resource_fork": (77, 87)}),
    (
        "the longest name", changed(bytes(128), (1, b"\x3F"), (2, LETTERS), (122, b"\x82\x81")),
        (81, 124), {"name": (2, LETTERS), "data_fork": (128, b""), "resource_fork": (128, b"")},
    ),
    # The data fork ends at 202, past the end, and Finder information has 15 bytes. The rows of 100 entries are cut.
    (
        "damaged entries", changed(APPLE, (25, b"\x64"), (61, b"\x20"), (49, b"\x0F")),
        (0, None), {"data_fork": (85, 54), "resource_fork": (175, b"RES"), "name": (134, b"Calc"), "comment": (199, b"Hi"), "finder": (86, 46)},
    ),
]

# As many entries as there may be. The last is Finder information without bytes, and the others have an unknown id.
MOST_ENTRIES = changed(bytes(26 + 12 * 65535), (0, APPLE[:24]), (24, b"\xFF\xFF"), (26 + 12 * 65534, b"\x00\x00\x00\x09"))
FORKS.append(("65,535 entries", MOST_ENTRIES, (0, None), {"data_fork": NONE, "finder": (86, 26 + 12 * 65534 + 8)}))

# A resource fork in AppleSingle, and a data fork that ends past the end.
DATA_OUTSIDE = changed(
    bytes(50 + len(FRAGMENT_FORK)),
    (0, b"\x00\x05\x16\x00\x00\x02\x00\x00"),
    (24, b"\x00\x02\x00\x00\x00\x02\x00\x00\x00\x32" + len(FRAGMENT_FORK).to_bytes(4, "big")),
    (38, b"\x00\x00\x00\x01\x00\x00\x00\x32\x00\x00\xFF\xFF"),
    (50, FRAGMENT_FORK),
)
FORKS.append(("a data fork outside", DATA_OUTSIDE, (0, None), {"data_fork": (85, 42), "resource_fork": (50, FRAGMENT_FORK)}))

# --- resources ---

# A resource's two rows, or an error, its two rows and its offset.
WHOLE = [(0, 0), (1, 0), (1, 1)]
WALKS = [
    ((), WHOLE),
    # no types, and none of the first
    (((68, b"\xFF\xFF"),), []),
    (((74, b"\xFF\xFF"),), [(1, 0), (1, 1)]),
    # a third reference of `TEXT` is at 82 of the map, which has 87 bytes
    (((82, b"\x00\x03"),), [*WHOLE, (91, 1, 2, 122)]),
    # the map has bytes for 7 references: 8 are too many, and 6 leave one
    (((74, b"\x00\x07"),), [(90, 0, 0, 74), (1, 0), (1, 1)]),
    (((74, b"\x00\x05"),), [(0, 0), (0, 1), (0, 2), (91, 0, 3, 122), (90, 1, 0, 82)]),
    # the map ends inside the row of `TEXT`, and the reference of `CODE` is past its end
    (((12, b"\x00\x00\x00\x2C"),), [(91, 0, 0, 86), (89, 1, 0, 78)]),
]

# The length of a fork, what is changed, the error, and that of a map that is read as far as it goes, with its offset.
MAPS = [
    (15, (), 87, None),
    (16, (), 87, None),
    (67, (), 87, None),
    (69, (), 88, None),
    (70, (), 0, (87, 4)),
    (126, (), 0, (87, 4)),
    (127, (), 0, (0, None)),
    (127, ((4, b"\x00\x00\x00\x80"),), 87, None),
    (127, ((12, b"\x00\x00\x00\x1B"),), 87, None),
    (127, ((12, b"\x00\x00\x00\x1D"),), 88, None),
    (127, ((12, b"\x00\x00\x00\x1E"),), 0, (0, None)),
    (127, ((12, b"\xFF\xFF\xFF\xFF"),), 0, (87, 4)),
    (127, ((64, b"\x00\x56"),), 88, None),
]

# What is changed, a resource, and the errors of its name and of its bytes with their offsets. All rows are there.
SOUND = 0, None
BROKEN = [
    ((), TEXT, -1, SOUND, SOUND),
    # the name begins at the end of the map, or ends after it
    (((100, b"\x00\x05"),), TEXT, -1, (92, 100), SOUND),
    (((122, b"\x05"),), TEXT, -1, (92, 100), SOUND),
    (((122, b"\x04"),), TEXT, -1, SOUND, SOUND),
    # the length begins in the data's last 3 bytes, or the bytes end after the data
    (((103, b"\x00\x00\x10"),), TEXT, -1, SOUND, (93, 102)),
    (((28, b"\x00\x00\x00\x04"),), TEXT, 128, SOUND, (93, 114)),
    (((16, b"\xFF\xFF\xFF\xFF"),), CODE, 0, (NOT_THERE, None), (93, 90)),
]

# --- fragments ---

# The offset and the length of the first member's container in a data fork of ten bytes, or an error and its offset.
TEN = b"0123456789"
CONTAINERS = [
    ((), TEN),
    (((59, b"\x03"),), TEN[3:]),
    (((59, b"\x03"), (63, b"\x07")), TEN[3:]),
    (((59, b"\x0A"),), b""),
    (((59, b"\x03"), (63, b"\x08")), (98, 56)),
    (((59, b"\x0B"),), (98, 56)),
    (((55, b"\x02"),), (NOT_THERE, None)),
]

# Of each member the errors of its name and its size with their offsets. One that isn't there has no name.
MEMBER = 0, None, 0, None
CUT_AT_SIZE, LOST = (96, 72), (NOT_THERE, None, 96, 242)
MEMBERS = [
    (242, (), [MEMBER] * 3),
    (242, ((30, b"\x00\x00"),), []),
    (242, ((30, b"\x00\x02"),), [MEMBER] * 2),
    (242, ((30, b"\xFF\xFF"),), [MEMBER] * 3 + [LOST]),
    # a size that can't hold the fields, none at all, and one past the end
    (242, ((72, b"\x00\x29"),), [(97, 74, *CUT_AT_SIZE), LOST]),
    (242, ((72, b"\x00\x00"),), [(97, 74, *CUT_AT_SIZE), LOST]),
    (242, ((72, b"\xFF\xFF"),), [(0, None, *CUT_AT_SIZE), LOST]),
    # the last member's name passes the end, or its member's, and the rest is whole
    (242, ((178, b"\x40"),), [MEMBER] * 2 + [(97, 178, 0, None)]),
    (242, ((177, b"\x69"),), [MEMBER] * 2 + [(97, 178, 0, None)]),
    (241, (), [MEMBER] * 2 + [(97, 178, 96, 176)]),
    (177, (), [MEMBER] * 2 + [(NOT_THERE, None, 96, 136)]),
    (32, (), [(NOT_THERE, None, 96, 32)]),
]

# The error of a table. A header that is cut has no version that counts.
TABLES = [
    (11, (), 94),
    (31, (), 94),
    (32, (), 0),
    (242, ((10, b"\x00\x02"),), 95),
    (31, ((10, b"\x00\x02"),), 94),
]

# Fields of the members: offset of the member, name, architecture, usage, size, and where its container is.
FIELDS = [
    (32, b"Calc", b"pwpc", 1, 56, 1, 0, 0),
    (88, b"Lib", b"pwpc", 0, 48, 1, 0, 0),
    (136, LETTERS, b"m68k", 2, 106, 2, 0x6E647276, 128),
]

# What is changed in a file with fragments, a name, and the bytes of the file that it means, or an error.
NAMED = [
    ((), b"Calc", slice(136, 386)),
    ((), b"Drv", slice(712, 715)),
    ((), b"calc", 80),
    ((), b"", 80),
    # a length of 0 reaches to the end of the data fork
    (((643, b"\x00"),), b"Calc", slice(136, 392)),
    (((643, b"\xFF"),), b"Calc", slice(136, 391)),
    (((642, b"\x01\x01"),), b"Calc", 98),
    # for CFM-68K too, no member is left
    (((612, b"m68k"),), b"Calc", 80),
    (((612, b"????"),), b"Calc", slice(136, 386)),
    # in memory, in another place, in a resource that isn't there, and by an id of 16 bits
    (((683, b"\x00"),), b"Drv", 80),
    (((683, b"\x09"),), b"Drv", 80),
    (((691, b"\x81"),), b"Drv", 80),
    (((773, b"\xFF\x80"), (688, b"\xFF\xFF\xFF\x80")), b"Drv", slice(712, 715)),
    (((711, b"\x04"),), b"Drv", 93),
    # no member with the name can be read, and the others can
    (((654, b"\xFF"),), b"Calc", 80),
    (((654, b"\xFF"),), b"Drv", slice(712, 715)),
    # the table, its resource, the resource fork and the file's header
    (((543, b"\x02"),), b"Calc", 95),
    (((745, b"x"),), b"Calc", 80),
    (((762, b"\x01"),), b"Calc", 80),
    (((528, b"\x00\x00\x01"),), b"Calc", 93),
    (((516, b"\x01"),), b"Calc", 87),
    (((0, b"\x01"),), b"Calc", 80),
    (((0, b"\x00\x05\x16\x07\x00\x03"),), b"Calc", 83),
]

# The errors of such a file: the number, the part, and the offset in it.
DAMAGE = [
    ((), []),
    (((642, b"\x01\x01"),), [(98, "cfrg 0", 104)]),
    (((711, b"\x04"),), [(93, "resource fork", 265)]),
    (((528, b"\x00\x00\x01"),), [(93, "resource fork", 253)]),
]

# A data fork with a container at 8, where `Calc` has it.
DATA_FORK = changed(bytes(264), (8, VECTORS))

# Other files, and a name. A file that is a resource fork has no data fork.
NAMED_ELSEWHERE = [
    ("a resource fork", FRAGMENT_FORK, b"Calc", 98),
    ("a resource fork", FRAGMENT_FORK, b"Drv", slice(200, 203)),
    ("a data fork", DATA_FORK, b"Calc", 80),
    ("a data fork outside", DATA_OUTSIDE, b"Calc", 85),
    ("a header that is cut", b"\x00\x05\x16\x07\x00\x03", b"Calc", 82),
    # an empty resource fork is none
    ("an empty resource fork", mac_binary("x", DATA_FORK, b""), b"Calc", 80),
]

# The bytes of a data fork and of a resource fork, a name, and the bytes that it means, or an error.
PAIRS = [
    (DATA_FORK, FRAGMENT_FORK, b"Calc", VECTORS),
    (DATA_FORK, FRAGMENT_FORK, b"Drv", b"drv"),
    (DATA_FORK, FRAGMENT_FORK, b"calc", 80),
    (DATA_FORK[:257], FRAGMENT_FORK, b"Calc", 98),
    (DATA_FORK, FRAGMENT_FORK[:15], b"Calc", 87),
    (DATA_FORK, b"", b"Calc", 80),
]

# --- searches ---

# Bytes at some offsets of a file, and the places of its containers.
SEARCHES = [
    (0, (), []),
    (100, (), []),
    (100, ((0, b"Joy!peff"), (8, b"Joy!peff"), (60, b"Joy!peff")), [0, 8, 60]),
    # the header of the last one passes the end
    (100, ((3, b"Joy!peff"), (61, b"Joy!peff")), [3]),
    (100, ((61, b"Joy!peff"),), []),
    (100, ((5, b"Joy!Joy!peff"), (40, b"Joy!pefJoy!peff")), [9, 47]),
]

# The container with a number in a file with two: it has all bytes after it.
TWO = changed(bytes(100), (3, b"Joy!peff"), (60, b"Joy!peff"))
NUMBERED = [(0, TWO[3:]), (1, TWO[60:]), (2, 80), (2 ** (8 * ctypes.sizeof(ctypes.c_size_t)) - 1, 80)]

# A container reaches to the end of its member, its resource or its fork. The fork has six bytes after the container, and the length of the
# member is at 640: 0 is all of the fork.
BOUNDED = [
    ("a member", fragment_file(VECTORS), VECTORS),
    ("a member of all of its fork", fragment_file(VECTORS, (643, b"\x00")), VECTORS + bytes(6)),
    ("a shorter member", fragment_file(VECTORS, (643, b"\xC8")), VECTORS[:200]),
    ("a resource", resource_fork(VECTORS), VECTORS),
    ("a resource that it passes", resource_fork(VECTORS[:200]), VECTORS[:200]),
    ("a resource, after other bytes", resource_fork(bytes(8) + VECTORS + bytes(4)), VECTORS + bytes(4)),
]


class Reader:
    """What the calls of the library give of some bytes."""

    def __init__(self, pef):
        self.pef, self.mac = pef, pef.mac

    def call(self, name, *words):
        return getattr(self.pef.library(), name)(*words)

    def offset(self, offset):
        return None if offset == self.mac._NO_OFFSET else offset

    def kind(self, contents):
        return self.pef.FileKind(self.call("pef_file_kind", contents, len(contents))).name

    def forks(self, contents):
        """The answer, and the forks."""
        row = self.mac._empty(self.mac._Forks)
        return self.call("pef_forks", contents, len(contents), ctypes.byref(row)), row

    def part(self, part):
        """The offset and the bytes of a part, or its error and the offset of that."""
        if part.error or not hasattr(part, "bytes"):
            return part.error, self.offset(part.error_offset)
        return part.offset, part.bytes.value()

    def map(self, fork):
        """The answer, and the error of the map with its offset, if it is read."""
        row = self.mac._ResourceMap()
        answer = self.call("pef_resource_map", fork, len(fork), ctypes.byref(row))
        return answer, None if answer else (row.error, self.offset(row.error_offset))

    def resources(self, fork):
        rows = self.mac._all("pef_resources", self.mac._Resource, fork, len(fork))
        return [(it.error, it.type_row, it.row, it.error_offset) if 89 <= it.error <= 91 else (it.type_row, it.row) for it in rows]

    def resource(self, fork, kind, number):
        """The errors of the name and of the bytes of a resource, with their offsets."""
        row = self.mac._empty(self.mac._Resource)
        answer = self.call("pef_find_resource", fork, len(fork), kind, number, ctypes.byref(row))
        return answer, (row.name_error, self.offset(row.name_error_offset)), (row.error, self.offset(row.error_offset))

    def members(self, table, data_fork=b""):
        return self.mac._all("pef_members", self.mac._Member, table, len(table), data_fork, len(data_fork))

    def table(self, table):
        count = ctypes.c_size_t()
        return self.call("pef_members", table, len(table), b"", 0, 0, (self.mac._Member * 1)(self.mac._empty(self.mac._Member)), 1, ctypes.byref(count))

    def found(self, call, *words):
        """The bytes that a call gives, or its error."""
        found = self.pef._no_bytes()
        return self.call(call, *words, ctypes.byref(found)) or found.value()


def checks(pef):
    read = Reader(pef)
    for name, contents, kind in KINDS:
        yield f"the kind of {name}", read.kind(contents), kind
    yield from of_forks(read)
    yield from of_resources(read)
    yield from of_members(read)
    yield from of_fragments(read)
    for length, parts, places in SEARCHES:
        yield f"the containers in {length} bytes with {parts}", pef.mac._places_in(changed(bytes(length), *parts)), places
    for number, wanted in NUMBERED:
        yield f"container {number}", read.found("pef_numbered_container", TWO, len(TWO), number), wanted
    for name, contents, wanted in BOUNDED:
        yield f"a container in {name}", read.found("pef_numbered_container", contents, len(contents), 0), wanted


def of_forks(read):
    for changes, is_right, kind, error in HEADERS:
        contents = changed(MAC_BINARY, *changes)
        if is_right:
            contents = changed(contents, (124, binascii.crc_hqx(contents[:124], 0).to_bytes(2, "big")))
        answer, forks = read.forks(contents)
        yield f"MacBinary with {changes}, right {is_right}", (answer, read.kind(contents), forks.error), (0, kind, error)
    for name, contents, error, parts in FORKS:
        answer, forks = read.forks(contents)
        yield f"the header of {name}", (answer, forks.error, read.offset(forks.error_offset)), (0, *error)
        for part, wanted in parts.items():
            yield f"the {part} of {name}", read.part(getattr(forks, part)), wanted
    for length in range(31):
        yield f"{length} bytes of AppleSingle", read.forks(APPLE[:length])[0], 82 if 4 <= length < 26 else 0
    yield "AppleSingle of version 3", read.forks(changed(APPLE, (5, b"\x03")))[0], 83


def of_resources(read):
    for changes, rows in WALKS:
        yield f"the resources with {changes}", read.resources(changed(RESOURCES, *changes)), rows
    for length, changes, error, cut in MAPS:
        yield f"the map in {length} bytes with {changes}", read.map(changed(RESOURCES, *changes)[:length]), (error, cut)
    for changes, kind, number, name, contents in BROKEN:
        fork = changed(RESOURCES, *changes)
        yield f"resource {number} with {changes}", read.resource(fork, kind, number), (0, name, contents)
        yield f"the rows with {changes}", read.resources(fork), WHOLE


def of_members(read):
    for changes, wanted in CONTAINERS:
        row = read.members(changed(FRAGMENTS, *changes), TEN)[0]
        found = (row.container_error, read.offset(row.container_error_offset)) if row.container_error else row.container.value()
        yield f"the container with {changes}", found, wanted
    for length, changes, wanted in MEMBERS:
        rows = read.members(changed(FRAGMENTS, *changes)[:length])
        found = [(it.name_error, read.offset(it.name_error_offset), it.error, read.offset(it.error_offset)) for it in rows]
        yield f"the members in {length} bytes with {changes}", found, wanted
    for length, changes, error in TABLES:
        yield f"a table of {length} bytes with {changes}", read.table(changed(FRAGMENTS, *changes)[:length]), error
    for it, wanted in zip(read.members(FRAGMENTS), FIELDS):
        code = it.architecture.to_bytes(4, "big")
        yield f"the member at {wanted[0]}", (it.place, it.name.value(), code, it.usage, it.size, it.locator, it.offset, it.length), wanted
    for code in range(6):
        yield f"usage {code}", read.members(changed(FRAGMENTS, (54, bytes([code]))))[0].usage, code
    for code in (0, 1, 2, 3, 255):
        yield f"locator {code}", read.members(changed(FRAGMENTS, (55, bytes([code]))))[0].locator, code


def of_fragments(read):
    files = [(f"a file with {changes}", fragment_file(VECTORS, *changes), name, wanted) for changes, name, wanted in NAMED]
    for about, file, name, wanted in files + NAMED_ELSEWHERE:
        wanted = wanted if isinstance(wanted, int) else file[wanted]
        yield f"{name} in {about}", read.found("pef_file_container", file, len(file), name, len(name)), wanted
    for changes, wanted in DAMAGE:
        errors = read.pef.MacFile(fragment_file(VECTORS, *changes)).errors
        yield f"the errors of a file with {changes}", [(it.number, it.part, it.offset) for it in errors], wanted
    for data_fork, resources, name, wanted in PAIRS:
        words = data_fork, len(data_fork), resources, len(resources), name, len(name)
        yield f"{name} in forks of {len(data_fork)} and {len(resources)} bytes", read.found("pef_fork_container", *words), wanted
