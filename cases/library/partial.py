"""What is read of containers that are damaged: `pef.Container` with `damaged`. And a full store of fragments, from which one is removed."""
from suite import changed

# The headers have 40 + 3 * 28 bytes, the bytes of section `a` are at 128, and the loader section at 144: its count of libraries is at 168,
# its library at 200 with its count of imports at 212, its import at 224, and its relocation header at 228.
SCRIPT = """library L 1 0 -
import v data strong
section a data global 0 4
section b data process 0 8
bytes a 0000002A
fix b 0 import v
"""
LENGTH_OF_LIBRARY = 24

# A cut, the numbers of the sections whose headers are in the bytes, and how many raw bytes section 0 has.
CUTS = [(40, [], None), (67, [], None), (68, [0], 0), (100, [0, 1], 0), (124, [0, 1, 2], 0), (130, [0, 1, 2], 2), (132, [0, 1, 2], 4)]

# Which of 256 fragments are removed: then there is room for one more, and not for two.
REMOVED = [7, 255, 0]


def error_of(pef, call, *words):
    try:
        call(*words)
    except pef.PefError as error:
        return error.number
    return 0


def of_cuts(pef, contents):
    for cut, numbers, raw in CUTS:
        it = pef.Container(contents[:cut], damaged=True)
        found = [section.number for section in it.sections], len(it.sections[0].raw) if it.sections else None
        yield f"sections in {cut} bytes", found, (numbers, raw)


def of_store(pef):
    with pef.Context() as context:
        for number in range(256):
            context.add(str(number), b"")
        yield "a fragment more than 256", error_of(pef, context.add, "more", b""), 204
        for number in REMOVED:
            context.remove(str(number))
            found = [error_of(pef, context.add, name, b"") for name in ("more", "still more")]
            yield f"two fragments in place of {number}", found, [0, 204]
            context.remove("more")
            context.add(str(number), b"")


def checks(pef):
    contents = pef.link(SCRIPT)
    yield from of_cuts(pef, contents)
    it = pef.Container(changed(contents, (168, b"\xFF\xFF\xFF\xFF")), damaged=True)
    # from the library on, the rest of the loader section is read as libraries
    found = len(it.libraries), it.libraries[0].name, it.imports, it.relocations
    yield "more libraries than there is room for", found, ((len(contents) - 200) // LENGTH_OF_LIBRARY, "L", [], [])
    it = pef.Container(changed(contents, (212, bytes(4))), damaged=True)
    yield "an import that is in no library's range", [(row.name, row.library) for row in it.imports], [("v", "")]
    yield from of_store(pef)
