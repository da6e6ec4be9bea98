"""Preparations that fail: the number of the error and its place, and for relocation programs the word that `inspect` gives too."""
import ctypes
import dataclasses

from data.bare import Section, container

PACKED, PROGRAM, SECTION = "packed data of section", "program of relocation header", "section"

# The section's raw bytes and the length of its memory and its image, and the error with its field: the offset of the instruction.
# The raw bytes begin at 96, after two section headers.
BAD_IMAGES = [
    ("22 01", 2, 21, 0),
    ("A0", 1, 22, 0),
    ("20 FF FF FF FF 7F", 1, 23, 0),
    ("22 01 02", 1, 24, 0),
    ("21 05", 2, 25, 2),  # the end of the bytes
]

# A program, and the error with its field: the offset of the instruction. The section has one word. The program begins at 192, after 84
# bytes of the loader section and a relocation header.
BAD_PROGRAMS = [
    ("4C00", 31, 0),
    ("4200 4C00", 31, 2),
    ("A000 0000 4200 C000", 31, 6),
    ("B4C0 0000", 31, 0),
    ("B4C0", 31, 0),
    ("C000", 31, 0),
    ("A000", 32, 0),
    ("4200 A000", 32, 2),
    ("9000", 33, 0),
    ("4200 9100", 33, 2),
    ("A000 0000 B080 0000", 33, 4),
    ("A000 0000 9000", 34, 4),
    ("4200 9001 9001", 35, 4),
    ("8000 8000 8000 8000 B0FF FFFF", 36, 8),
]

# The length of the section's memory and a program, and the error with its field and the offset of its word. The section is the only
# one, and there is one import.
BAD_ADDITIONS = [
    (3, "4000", 37, 0, 0),
    (12, "8008 4000", 37, 2, 9),
    (8, "8003 4600", 37, 2, 8),  # the second word of a pair; section 1 counts as 0
    (12, "A000 0000 4000 4200 9103", 37, 6, 12),  # the second instruction of a block, when it is repeated
    (12, "4200 B03F FFFF", 37, 0, 12),
    (8, "4A01", 38, 0, 4),
    (4, "6601", 39, 0, 0),
    (12, "4000 6607", 39, 2, 4),
    (12, "4000 6207", 39, 2, 4),
    # of several errors a missing section is reported first, then a missing import
    (12, "800B 6601", 39, 2, 12),
    (12, "800B 6001", 38, 2, 12),
]


def refusal(pef, contents):
    """The error of a preparation in memory up to 00020000 (hex): its number, part, row, field and offset, and if the fragment is present."""
    with pef.Context(0x20000) as context:
        context.add("it", contents)
        try:
            context.prepare("it")
        except pef.PefError as error:
            return error.number, error.part, error.row, error.field, error.offset, context.is_present("it")
    return None


def first_errors(pef, contents):
    """The errors of a preparation, of pef_container_place and of a listing, all that pef_findings gives, and all that a report has."""
    place = pef._Place()
    reading = pef.library().pef_container_place(contents, len(contents), ctypes.byref(place))
    try:
        listed = pef.Container(contents).listing()
    except pef.PefError as error:
        listed = error.number
    places, count = (pef._declarations._Finding * 8)(), ctypes.c_size_t()
    pef.library().pef_findings(contents, len(contents), 0, places, len(places), ctypes.byref(count))
    found = [it.number for it in places[: count.value] if it.is_error]
    return refusal(pef, contents)[0], reading, listed, found, [it.number for it in pef.inspect(contents) if it.is_error]


def errors(pef, contents):
    """The errors that `inspect` finds: their numbers, parts, rows, fields and offsets, and the words of additions."""
    return [(it.number, int(it.part), it.row, it.field, it.offset, it.detail) for it in pef.inspect(contents) if it.is_error]


def checks(pef):
    for raw, total, number, field in BAD_IMAGES:
        contents = container([Section(bytes.fromhex(raw), total, total, kind=2)], symbol=True)
        yield f"packed bytes {raw}", refusal(pef, contents), (number, PACKED, 0, field, 96 + field, False)
    for halfwords, number, field in BAD_PROGRAMS:
        contents = container([Section(total=4)], [bytes.fromhex(halfwords)], symbol=True)
        yield f"a program {halfwords}", refusal(pef, contents), (number, PROGRAM, 0, field, 192 + field, False)
    for total, halfwords, number, field, word in BAD_ADDITIONS:
        contents = container([Section(total=total)], [bytes.fromhex(halfwords)], symbol=True)
        yield f"{halfwords} in {total} bytes", refusal(pef, contents), (number, PROGRAM, 0, field, 192 + field, False)
        yield f"the word of {halfwords} in {total} bytes", errors(pef, contents), [(number, int(pef.Part.PROGRAM), 0, field, 192 + field, word)]
    # a second section of one word: its header and its bytes come before the program
    contents = container([Section(total=4), Section(b"\0\0\0\1", 4, 4)], [bytes.fromhex("6207")], symbol=True)
    yield "6207 of two sections", refusal(pef, contents), (39, PROGRAM, 0, 0, 192 + 28 + 4, False)
    yield from orders(pef)


def orders(pef):
    """Which of several errors is reported. Room is tested before images, and images before programs. A program is applied before the next
    one is read. With two relocation headers the programs begin at 204."""
    bad = Section(b"\xA0", 1, 1, kind=2)
    contents = container([dataclasses.replace(bad, total=0x10001)], [bytes.fromhex("4C00")], symbol=True)
    yield "room, an image and a program", refusal(pef, contents), (67, SECTION, 0, 8, 40 + 8, False)
    contents = container([bad], [bytes.fromhex("4C00")], symbol=True)
    yield "an image and a program", refusal(pef, contents), (22, PACKED, 0, 0, 96, False)
    contents = container([Section(bytes.fromhex("22 01"), 2, 2, kind=2)], [bytes.fromhex("4C00")], symbol=True)
    yield "the order of a preparation, and that of the other calls", first_errors(pef, contents), (21, 31, 31, [31, 21], [21, 31])
    contents = container([Section(total=8)], [bytes.fromhex("4A01"), bytes.fromhex("4C00")], symbol=True)
    yield "an addition, and the next program", refusal(pef, contents), (38, PROGRAM, 0, 0, 204, False)
    contents = container([Section(total=8)], [bytes.fromhex("4000"), bytes.fromhex("4C00")], symbol=True)
    yield "the second program", refusal(pef, contents), (31, PROGRAM, 1, 0, 206, False)
