"""Damaged containers: the first error with its place. And what is read of sound ones with unusual fields."""
import ctypes

from data.damaged import ERRORS, SOUND, VECTORS, with_words

# Words of `VECTORS` that are changed, and what is read of it then. Section 3 isn't instantiated: its header is at 124.
KINDS = [((148, 0x05040400), 5), ((148, 0x07040400), 7), ((148, 0x08040400), 8)]

RAW = bytes.fromhex("0011223344556677")
RAW_BYTES = [
    ((), RAW),
    # An image of four bytes: the raw bytes beyond it belong to the section.
    (((52, 4),), RAW),
    # No raw bytes, at the end and far after it.
    (((52, 0), (56, 0), (60, 250)), b""),
    (((52, 0), (56, 0), (60, 0xFFFFFFFF)), b""),
    # Of two loader sections the first one is used.
    (((32, 0x00040002), (148, 0x04000000)), RAW),
]

# Where the name of section 0 begins, and the name. The bytes from 129 on are 11 22 33 44 55 66 77 00, and the container's last zero byte is
# at 248.
NAMES = [
    (0, ""),
    (5, bytes.fromhex("11223344556677").decode("mac_roman")),
    (124, ""),
    (125, None),
    (0x7FFFFFFF, None),
    (0x80000000, None),
    (0xFFFFFFFE, None),
]

# No main, an initialization and a termination routine, and an absolute export.
OTHER_ENTRIES = ((160, 0xFFFFFFFF), (168, 0), (172, 4), (176, 1), (180, 12), (246, 0xFFFE))


def place_of(pef, contents):
    """What pef_container_place gives: the number, and the part, the row, the field and the offset if there is an error with a place."""
    place = pef._Place()
    number = pef.library().pef_container_place(contents, len(contents), ctypes.byref(place))
    return number, (place.part, place.row, place.field, place.offset) if place.part else ()


def loader_of(pef, contents):
    """What pef_header and pef_loader give: 0 if they read the container."""
    header, loader = pef._Header(), pef._Loader()
    calls = (("pef_header", header), ("pef_loader", loader))
    return [getattr(pef.library(), name)(contents, len(contents), ctypes.byref(row)) for name, row in calls]


def checks(pef):
    for number, error in enumerate(ERRORS):
        yield f"the place of error {number}, {error.words}", place_of(pef, error.contents), (error.number, error.place)
    for number, (base, words) in enumerate(SOUND):
        yield f"sound container {number}, {words}", loader_of(pef, with_words(base, words)), [0, 0]
    for word, kind in KINDS:
        container = pef.Container(with_words(VECTORS, [(32, 0x00040002), word]))
        found = [(it.kind, it.instantiated) for it in container.sections][3]
        yield f"a section of kind {kind}", found, (kind, False)
    for words, raw in RAW_BYTES:
        container = pef.Container(with_words(VECTORS, words))
        found = container.sections[0].raw, container.sections[2].raw, [it.name for it in container.exports]
        yield f"raw bytes if {words}", found, (raw, VECTORS[160:], ["go"])
    for offset, name in NAMES:
        yield f"a name at {offset}", pef.Container(with_words(VECTORS, [(40, offset)])).sections[0].name, name
    yield "no name after the last section", section_name(pef, VECTORS, 3), 201
    container = pef.Container(with_words(VECTORS, OTHER_ENTRIES))
    yield "other entry points", container.entries, {"init": pef.Entry(0, 4), "term": pef.Entry(1, 12)}
    yield "an absolute export", container.exports, [pef.Export("go", -2, 0, 2)]


def section_name(pef, contents, number):
    name = pef._no_bytes()
    return pef.library().pef_section_name(contents, len(contents), number, ctypes.byref(name))
