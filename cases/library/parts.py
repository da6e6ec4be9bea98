"""Reports in parts, and the additions of programs in damaged containers."""
import ctypes
import json

from data.containers import RICH, STUB, VECTORS
from suite import changed

OK, TOO_SHORT, BAD_TAG, LOADER_SHORT, BAD_OPCODE, NOT_THERE, NOT_OPEN = 0, 1, 2, 11, 31, 201, 202
SECTION, LIBRARY, IMPORT, RELOCATION, EXPORT = 2, 4, 5, 9, 10
KINDS = {"sections": SECTION, "libraries": LIBRARY, "imports": IMPORT, "relocations": RELOCATION, "exports": EXPORT}

# Two containers, of 250 and 236 bytes, at 8 and at 262. The second one has the rest of the file. docs/INSPECT.md says what each takes from
# the budget: 8,192, 40, 28 for each section, and its loader section.
TWO = bytes(8) + VECTORS + b"\1\2\3\4" + STUB
BUDGET = 67_108_864 + 498
COSTS = 8_192 + 40 + 3 * 28 + 90, 8_192 + 40 + 2 * 28 + 114

# Forty headers of containers, each with as many sections as there can be. 36 of them are in the budget.
HEADER = b"Joy!peffpwpc" + bytes.fromhex("00000001") + bytes(16) + b"\xff\xff" + bytes(6)
MANY = HEADER * 40

# What the containers of a file are: an offset, a length, the number, how many weren't inspected, and what is left of the budget. The last
# row is the end of the file.
FOUND = [
    ("no bytes", b"", [(0, 0, 0, 0, 67_108_864)]),
    ("no container", bytes(100), [(100, 0, 0, 0, 67_108_964)]),
    ("a container", VECTORS, [(0, 250, 0, 0, 67_108_864 + 250), (250, 0, 1, 0, 67_108_864 + 250 - COSTS[0])]),
    ("two containers", TWO, [(8, 490, 0, 0, BUDGET), (262, 236, 1, 0, BUDGET - COSTS[0]), (498, 0, 2, 0, BUDGET - sum(COSTS))]),
]

# Changes of VECTORS, the number of a relocation header, and the answer with the additions. Its program is the halfword at 228, 4601: for
# two pairs of words the addresses of sections 0 and 1.
PAIRS = [(0, 0, 1), (4, 1, 1), (8, 0, 1), (12, 1, 1)]
FIXUPS = [
    ("nothing", (), 0, OK, PAIRS),
    ("the format's version", ((12, b"\7"),), 0, OK, PAIRS),
    ("an export", ((240, b"\xff"),), 0, OK, PAIRS),
    ("nothing, past the last program", (), 1, NOT_THERE, []),
    ("the length of the program", ((222, b"\x10"),), 0, NOT_THERE, []),
    ("the program", ((228, b"\xff\xff"),), 0, BAD_OPCODE, []),
    ("the loader section's kind", ((120, b"\5"),), 0, LOADER_SHORT, []),
    ("the tag", ((0, b"j"),), 0, BAD_TAG, []),
]


def row_of(found):
    """Where a container is, its number, and what is left."""
    return found.offset, found.length, found.number, found.skipped, found.budget


class Library:
    """The calls for reports in parts of a file."""

    def __init__(self, pef, contents):
        self.pef, self.calls, self.file = pef, pef.library(), (contents, ctypes.c_size_t(len(contents)))

    def found(self):
        """Each container, and the end of the file."""
        found = self.pef._FoundContainer()
        answer = self.calls.pef_first_container(*self.file, ctypes.byref(found))
        while answer == OK:
            yield type(found).from_buffer_copy(found)
            answer = self.calls.pef_next_container(*self.file, ctypes.byref(found))
        assert answer == NOT_THERE
        yield found

    def text(self, call, *words):
        """The text that a call opens, in parts of seven bytes; or what the call returned, and what reading returned then."""
        report, part, written = self.pef._Report(), ctypes.create_string_buffer(7), ctypes.c_size_t(7)
        answer, text = getattr(self.calls, call)(ctypes.byref(report), *words), b""
        while written.value == 7:
            said = self.calls.pef_report_next(ctypes.byref(report), part, ctypes.c_size_t(7), ctypes.byref(written))
            if answer or said:
                return answer, said
            text += part.raw[: written.value]
        self.calls.pef_report_free(ctypes.byref(report))
        return text

    def head(self, path):
        return self.text("pef_report_open_head", path, ctypes.c_size_t(len(path)), *self.file)

    def of(self, found):
        return self.text("pef_report_open_found", *self.file, ctypes.byref(found))

    def end(self, found):
        return self.text("pef_report_open_end", *self.file, ctypes.byref(found))

    def excerpt(self, found, most):
        return self.text("pef_report_open_excerpt", *self.file, ctypes.byref(found), ctypes.c_uint32(most))

    def rows(self, found, part, start, count):
        return self.text("pef_report_open_rows", *self.file, ctypes.byref(self.pef._RowRange(found.offset, part, start, count)))

    def whole(self, path):
        return self.text("pef_report_open", path, ctypes.c_size_t(len(path)), *self.file)


def fixups(pef, contents, header):
    """What `pef_partial_fixups` gives, three additions at a time: an offset, a number and a kind of each."""
    rows, count, found, start = (pef._Fixup * 3)(), ctypes.c_size_t(3), [], 0
    while count.value == 3:
        asked = contents, ctypes.c_size_t(len(contents)), ctypes.c_size_t(header), ctypes.c_size_t(start), rows, ctypes.c_size_t(3)
        answer = pef.library().pef_partial_fixups(*asked, ctypes.byref(count))
        if answer:
            return answer, found
        found += [(it.offset, it.number, it.kind) for it in rows[: count.value]]
        start += 3
    return OK, found


def found_again(pef):
    """At the end of a file the next container is the end again."""
    library = Library(pef, TWO)
    *_, end = library.found()
    before = bytes(end)
    answer = library.calls.pef_next_container(*library.file, ctypes.byref(end))
    return answer, bytes(end) == before


def joined(pef):
    for name, contents in (("nothing", b""), ("two containers", TWO), ("a rich container", RICH), ("more than the budget", MANY)):
        library = Library(pef, contents)
        *containers, end = library.found()
        parts = [library.head(b"a path"), *map(library.of, containers), library.end(end)]
        yield f"the parts of a report on {name}", b"".join(parts), library.whole(b"a path")


def over_the_budget(pef):
    library = Library(pef, MANY)
    *containers, end = library.found()
    yield "how many are in the budget", [bool(library.of(it)) for it in containers], [True] * 36 + [False] * 4
    yield "the beginning of one that isn't", library.excerpt(containers[36], 5), b""
    yield "the end of a report that lacks containers", (end.number, end.skipped, end.budget), (40, 4, 0)
    notes = json.loads(b'{"containers":[' + library.end(end))["notes"]
    yield "its note", [(it["number"], it["containers"]) for it in notes], [(115, 4)]


def rows(pef):
    """The beginning of a container's object, and further rows that go on where it ends."""
    library = Library(pef, bytes(16) + RICH)
    container, _ = library.found()
    whole, first = json.loads(library.of(container)), json.loads(library.excerpt(container, 2))
    # They are in the order of their parts: an error is in section 2, a note in section 4, and all others are in parts after them.
    yield "errors and notes of an excerpt", [it["number"] for it in first["errors"] + first["notes"]], [24, 112]
    for name, part in KINDS.items():
        cut = [{key: value for key, value in it.items() if key != "instructions"} for it in whole[name]]
        begun = [{key: value for key, value in it.items() if key != "instructions"} for it in first[name]]
        yield f"the first {name}", begun, cut[:2]
        yield f"all {name}", json.loads(b"[" + library.rows(container, part, 0, 100) + b"]"), whole[name]
        others = library.rows(container, part, 2, 100)
        yield f"more {name}", (others[:1], json.loads(b"[" + others[1:] + b"]")), (b"," if whole[name][2:] else b"", whole[name][2:])
        yield f"no {name} past the last", library.rows(container, part, 100, 100), b""
    for part in (0, 1, 3, 6, 8, 11, 12, 13, 0xFFFFFFFF):
        yield f"rows of part {part}", library.rows(container, part, 0, 1), (NOT_THERE, NOT_OPEN)


def checks(pef):
    for name, contents, wanted in FOUND:
        yield f"what is found of {name}", [*map(row_of, Library(pef, contents).found())], wanted
    yield "the next one at the end", found_again(pef), (NOT_THERE, True)
    yield from joined(pef)
    yield from over_the_budget(pef)
    yield from rows(pef)
    for damaged, changes, header, answer, additions in FIXUPS:
        yield f"additions if {damaged} is changed", fixups(pef, changed(VECTORS, *changes), header), (answer, additions)
    yield "additions of no bytes", fixups(pef, b"", 0), (TOO_SHORT, [])
