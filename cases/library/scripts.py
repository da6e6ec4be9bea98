"""Scripts: their first errors with the places, the limits, what a container has of a script, and the certificates."""
import ctypes

from data import containers, scripts
from data.script_errors import ERRORS, SOUND

LINE, NOWHERE = 13, 2 ** (8 * ctypes.sizeof(ctypes.c_size_t)) - 1
NO_ERROR = (0, 0, 0, 0, NOWHERE, 0)


def place_of(pef, text):
    """What pef_script_place gives: the number, the four fields of the place, and the earlier line."""
    place, earlier = pef._Place(), ctypes.c_size_t(7)
    number = pef.library().pef_script_place(text, len(text), ctypes.byref(place), ctypes.byref(earlier))
    return number, place.part, place.row, place.field, place.offset, earlier.value


def refused_by(call, text):
    """What pef_link or pef_distances gives of a script with an error: the number, the line, and what it leaves of a length of 7 and of a
    buffer."""
    buffer, written, line = (ctypes.c_uint8 * 4)(*b"left"), ctypes.c_size_t(7), ctypes.c_size_t(7)
    number = call(text, len(text), buffer, 4, ctypes.byref(written), ctypes.byref(line))
    return number, line.value, written.value, bytes(buffer)


def errors(pef):
    for error in ERRORS:
        name = repr(error.text[-40:])
        yield f"the place in {name}", place_of(pef, error.contents), (error.number, LINE, error.line, error.word, error.at, error.earlier or 0)
        for call in "pef_link", "pef_distances":
            yield f"{call} of {name}", refused_by(getattr(pef.library(), call), error.contents), (error.number, error.line, 7, b"left")
    for text in SOUND:
        yield f"no error in {text[-40:]!r}", place_of(pef, text.encode("latin-1")), NO_ERROR


# A first line, what the lines after it begin and end with, and how many of them a script can have.
COUNTS = [
    ("", "section s", " data process 0 0", 16),
    ("", "library l", " 1 0 -", 4096),
    ("library l 1 0 -", "import i", " data weak", 65_536),
    ("section s data process 0 0", "export e", " data s 0", 16_383),
    ("absolute z code 0", "absolute e", " data 0", 16_382),
]

# How many fixups side by side, a last line, and whether it is one too many.
FIXUPS = [
    (65_536, "", False),
    (65_536, "fix s 262144 section s", True),
    (65_536, "fix s 0 section s", True),
    (65_534, "tvector s 262136 s s", False),
    (65_535, "tvector s 262140 s s", True),
    (65_535, "tvector s 0 s s", True),
]


def too_many(pef, text):
    """The place of a last line that is one too many, and what is expected: its word 1."""
    before, _, last = text.rpartition("\n")
    at = len(before) + 1 + len(last.split(" ")[0]) + 1
    return place_of(pef, text.encode()), (48, LINE, text.count("\n") + 1, 1, at, 0)


def at_all_limits():
    """The text of a script with as many libraries, imports, sections, fixups and exports as there may be."""
    for number in range(65_536):
        if number % 16 == 0:
            yield f"library l{number // 16} 0 0 -"
        yield f"import i{number} data strong"
    for section in range(16):
        yield f"section s{section} data process 4 524288"
    for section in range(16):
        for number in range(65_536):
            yield f"fix s{section} {8 * number} " + ("import i65535" if section < 4 else f"section s{number % 16}")
    for number in range(16_383):
        yield f"export e{number} data s7 {number}"


def limits(pef):
    for first, start, end, most in COUNTS:
        text = "\n".join([first, *(f"{start}{number}{end}" for number in range(most))])
        yield f"as many lines `{start}`", place_of(pef, text.encode()), NO_ERROR
        yield f"one more line `{start}`", *too_many(pef, f"{text}\n{start}{most}{end}")
    # 32,768 names of 255 bytes, with one more for each, have all the bytes that names may have.
    text = "\n".join([f"library {0:0255} 1 0 -", *(f"import {number:0255} data strong" for number in range(32_767))])
    yield "the longest names", place_of(pef, text.encode()), NO_ERROR
    yield "one more name", *too_many(pef, f"{text}\nimport x data strong")
    for count, last, is_too_many in FIXUPS:
        lines = ["section s data process 0 262152", *(f"fix s {4 * number} section s" for number in range(count)), last]
        text = "\n".join(lines)
        if is_too_many:
            yield f"{count} fixups and `{last}`", *too_many(pef, text)
        else:
            yield f"{count} fixups and `{last}`", place_of(pef, text.encode()), NO_ERROR
    yield "all limits", place_of(pef, "\n".join(at_all_limits()).encode()), NO_ERROR


# How many bytes a section has, and how many words each fixup is after the one before it, round the end: its 53 words rise, fall, or
# are mixed.
ORDERS = [(264, 1), (264, 52), (264, 20), (4_194_305, 52), (4_194_305, 20)]


def orders(pef):
    """Fixups are made in address order, whatever the order of the lines. The words of the 53 are five bytes apart."""
    for total, step in ORDERS:
        lines = [f"section d data process 4 {total}", "section e data process 4 0"]
        for turn in range(53):
            word = turn * step % 53
            lines.append(f"fix d {5 * word} section {'de'[word % 2]}")
        made = pef.Container(pef.link("\n".join(lines))).fixups(0)
        expected = [(5 * word, "section", word % 2) for word in range(53)]
        yield f"53 fixups of {total} bytes by {step}", [(it.offset, it.kind, it.number) for it in made], expected


def vectors(pef):
    """The script with two transition vectors: its container, and each part as it is read."""
    linked = pef.link(scripts.VECTORS)
    yield "the container", linked, containers.VECTORS
    container = pef.Container(linked)
    header = container.header
    yield "the versions", (header.current_version, header.old_def_version, header.old_imp_version), (1, 0, 0)
    sections = [(it.kind, it.share, it.alignment, it.total_size, it.raw) for it in container.sections if it.instantiated]
    code = (0, 4, 4, 8, bytes.fromhex("0011223344556677"))
    data = (1, 1, 4, 16, bytes.fromhex("00000000 00000000 00000004 00000000"))
    yield "the sections", sections, [code, data]
    yield "the relocation headers", [it.section for it in container.relocations], [1]
    fixups = [(it.offset, it.kind, it.number) for it in container.fixups(0)]
    yield "the fixups", fixups, [(0, "section", 0), (4, "section", 1), (8, "section", 0), (12, "section", 1)]
    yield "the libraries and imports", (container.libraries, container.imports), ([], [])
    yield "the exports", container.exports, [pef.Export("go", 1, 0, 2)]
    yield "the entry points", container.entries, {"main": pef.Entry(1, 0)}


def certificates(pef):
    """What `pef distances` prints, in a buffer that is as long, and in one that is a byte too short."""
    yield "the certificates", pef.distances(scripts.VECTORS).encode(), scripts.VECTORS_CERTIFIED
    yield "no certificates", pef.distances(""), "pefcert 2\nend\n"
    needed = len(scripts.VECTORS_CERTIFIED)
    for room, number in (needed - 1, 200), (needed, 0):
        buffer, written, line = (ctypes.c_uint8 * needed)(), ctypes.c_size_t(7), ctypes.c_size_t(7)
        made = pef.library().pef_distances(scripts.VECTORS, len(scripts.VECTORS), buffer, room, ctypes.byref(written), ctypes.byref(line))
        expected = scripts.VECTORS_CERTIFIED if number == 0 else bytes(needed)
        yield f"certificates in {room} bytes", (made, written.value, line.value, bytes(buffer)), (number, needed, 0, expected)


# A script with each kind of line, whose contents aren't in the order of the sections.
EVERY_LINE = """versions 3 2 1
library Tools 5 4 weak,before
library Other 7 6 -
import draw tvector strong
import size data weak
section code code global 4 8
section data data process 0xC 16
section packed pattern protected 2 8
fix data 8 import size
bytes code 0011
tvector data 0 code data
bytes packed 00000000
bytes data 00
export go tvector data 0
reexport size glue size
absolute trap code 0xA9FF
main data 0
term code 4
"""


def every_line(pef):
    """What a container has of a script with each kind of line."""
    container = pef.Container(pef.link(EVERY_LINE))
    header = container.header
    yield "versions", (header.current_version, header.old_def_version, header.old_imp_version), (3, 2, 1)
    yield "libraries", container.libraries, [pef.Library("Tools", 5, 4, True, True), pef.Library("Other", 7, 6, False, False)]
    yield "imports", container.imports, [pef.Import("draw", "Other", 2, False), pef.Import("size", "Other", 1, True)]
    sections = [it for it in container.sections if it.instantiated]
    found = [(it.kind, it.share, it.alignment, it.total_size) for it in sections]
    yield "sections", found, [(0, 4, 4, 8), (1, 1, 12, 16), (2, 5, 2, 8)]
    yield "images", [container.expand(it) for it in sections], [b"\x00\x11", b"\x00", bytes(4)]
    yield "fixups", [(it.offset, it.kind, it.number) for it in container.fixups(0)], [(0, "section", 0), (4, "section", 1), (8, "import", 1)]
    exports = {pef.Export("go", 1, 0, 2), pef.Export("size", -3, 1, 4), pef.Export("trap", -2, 0xA9FF, 0)}
    yield "exports", set(container.exports), exports
    yield "entry points", container.entries, {"main": pef.Entry(1, 0), "term": pef.Entry(0, 4)}


def checks(pef):
    for table in errors, limits, orders, vectors, certificates, every_line:
        yield from table(pef)
