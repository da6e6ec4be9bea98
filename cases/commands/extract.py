"""`pef extract`: containers by name and by number, and errors, after which no file has changed. Resource forks in other files are in
companions.py."""
from mac_binary import mac_binary

from data.containers import RICH, VECTORS
from data.mac_files import fragment_file, resource_fork
from data.refusals import MISSING, refused
from suite import Case, changed

# A file with fragments, with some changes; a name, and the bytes of OUT.
FOUND = (
    ((), "Calc", VECTORS),
    ((), "#0", VECTORS),
    ((), "Drv", b"drv"),
    # `#` is part of a name if no number follows it
    (((711, b"\x02"), (703, b"#01")), "#01", b"dr"),
    # the name as it is printed, and in UTF-8
    (((703, b"\x8e%a"),), "%8E%25a", b"drv"),
    (((703, b"\x8e%a"),), "\u00e9%a", b"drv"),
    (((703, b"A\xdb\xf0"),), "A\u20ac\uf8ff", b"drv"),
    (((703, b"A\xdb\xf0"),), "A%DB%F0", b"drv"),
    # the bytes of a name come first
    (((703, b"%41"),), "%41", b"drv"),
    (((703, b"%41"),), "%2541", b"drv"),
)

CASES = [
    Case(
        f"fragment {name}", ["extract", "a", name, "out"], {"a": fragment_file(VECTORS, *changes)},
        stdout=b"extracted %d bytes\n" % len(found), after={"out": found},
    )
    for changes, name, found in FOUND
]

# A container ends where its own parts end, and one with an error where its fork or the file ends. OUT may be the file itself.
AROUND = changed(bytes(1000), (7, RICH))
DAMAGED = changed(AROUND, (15, b"m68k"))
CASES += [
    Case("a container amid zeros", ["extract", "a", "#0", "a"], {"a": AROUND}, stdout=b"extracted 499 bytes\n", after={"a": RICH}),
    Case("a damaged container amid zeros", ["extract", "a", "#0", "a"], {"a": DAMAGED}, stdout=b"extracted 993 bytes\n", after={"a": DAMAGED[7:]}),
]

# The fork has six bytes after its container. The member ends before them, unless its length, at 640, is 0 or passes the fork. A container
# in a resource ends with it.
M68K = changed(VECTORS, (8, b"m68k"))
CASES += [
    Case(f"a damaged container in {name}", ["extract", "a", "#0", "out"], {"a": file}, stdout=b"extracted %d bytes\n" % len(found), after={"out": found})
    for name, file, found in (
        ("a member", fragment_file(M68K), M68K),
        ("a fork", fragment_file(M68K, (643, b"\x00")), M68K + bytes(6)),
        ("a member that passes the fork", fragment_file(M68K, (642, b"\x01\x01")), M68K + bytes(6)),
        ("a resource", resource_fork(M68K), M68K),
        ("a resource that it passes", resource_fork(VECTORS[:200]), VECTORS[:200]),
    )
]

# The name of section 0 is after all sections. It ends with a zero byte, or not at all; or it would begin past the end.
NAMES = 40 + 28 * int.from_bytes(VECTORS[32:34], "big")
LATE = changed(VECTORS, (40, (len(VECTORS) - NAMES).to_bytes(4, "big")))
NOWHERE = changed(VECTORS, (40, (len(VECTORS) - NAMES + 5).to_bytes(4, "big")))
CASES += [
    Case(f"a container, {name}", ["extract", "a", "#0", "out"], {"a": file}, stdout=b"extracted %d bytes\n" % len(found), after={"out": found})
    for name, file, found in (
        ("with its name at the end", LATE + b"late\0more\0", LATE + b"late\0"),
        ("with a name without an end", LATE + b"late", LATE + b"late"),
        ("with a name past the end", NOWHERE + b"later", NOWHERE),
    )
]

# No fragment or container has these names.
CASES += [
    Case(f"nothing is {name}", ["extract", "a", name, "out"], {"a": fragment_file(VECTORS)}, **refused(b"80 NoContainer"))
    for name in ("#1", "#", "#-1", "#4294967296", "calc", "Cal%63", "Cal", "Calc\u00e9")
]
# A name is printed in one way, and its characters are composed ones.
CASES += [
    Case(f"nothing is {name}", ["extract", "a", name, "out"], {"a": fragment_file(VECTORS, (703, b"A\x8eB"))}, **refused(b"80 NoContainer"))
    for name in ("A%8eB", "A%8E", "A%8EB%", "A\u00e9", "Ae\u0301B", "%41%8EB", "A\u00e9%42")
]

# Files, by their errors. The resource fork is at 512, its data at 528, and its map at 715.
FRAGMENTS = {
    # `Calc` ends past the data fork
    b"98 FragmentOutside": fragment_file(VECTORS, (642, b"\x01\x01")),
    # the data begin past the map
    b"87 ResourceMapOutside": fragment_file(VECTORS, (516, b"\x01")),
    b"88 BadTypeList": fragment_file(VECTORS, (739, b"\xFF\xFF")),
    # the resource `cfrg` passes the end of the data; it has a byte too few for its header; its version is 2
    b"93 ResourceDataOutside": fragment_file(VECTORS, (528, b"\x01")),
    b"94 FragmentTableCut": fragment_file(VECTORS, (531, b"\x1F")),
    b"95 BadFragmentTable": fragment_file(VECTORS, (543, b"\x02")),
    # the file begins as AppleDouble, of version 3
    b"83 BadAppleVersion": fragment_file(VECTORS, (0, b"\x00\x05\x16\x07\x00\x03")),
    # AppleDouble without the whole number of entries; with a resource fork of a byte that isn't there; with a row that isn't whole,
    # which no search by an id finds
    b"82 AppleHeaderCut": b"\x00\x05\x16\x07\x00\x02" + bytes(19),
    b"85 AppleEntryOutside": b"\x00\x05\x16\x07\x00\x02" + bytes(18) + b"\x00\x01\x00\x00\x00\x02\x00\x00\x00\x26\x00\x00\x00\x01",
    b"80 NoContainer": b"\x00\x05\x16\x07\x00\x02" + bytes(18) + b"\x00\x01\x00\x00\x00\x02\x00\x00\x00\x26\x00\x00\x00",
}
CASES += [Case(error.decode(), ["extract", "a", "Calc", "out"], {"a": file, "out": b"text"}, **refused(error)) for error, file in FRAGMENTS.items()]

# An empty resource fork is none: no name means a container, and numbers do.
EMPTY_FORK = mac_binary("x", VECTORS, b"")
CASES += [
    Case("a name, with an empty resource fork", ["extract", "a", "Calc", "out"], {"a": EMPTY_FORK}, **refused(b"80 NoContainer")),
    Case("a number, with an empty resource fork", ["extract", "a", "#0", "out"], {"a": EMPTY_FORK}, stdout=b"extracted %d bytes\n" % len(VECTORS), after={"out": VECTORS}),
]

CASES += [
    Case("no file", ["extract", "b", "#0", "out"], {"a": VECTORS}, **refused(b"71 FileUnreadable b", MISSING)),
    Case("no folder for the container", ["extract", "a", "#0", "d/out"], {"a": VECTORS}, **refused(b"72 FileUnwritable d/out", MISSING)),
]
