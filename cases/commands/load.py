"""`pef load`: the memory of a fragment with its libraries, and errors. Libraries that `link` doesn't write are in spelled.py."""
from data.containers import SPELLED, VECTORS
from data.refusals import MISSING, READ_FOLDER, at_byte, at_halfword, at_version, refused
from data.scripts import EXAMPLE, EXAMPLE_SHOWN, LIBRARY, USER
from suite import Begins, Case, changed

# Scripts, by the paths of their containers.
SCRIPTS = {
    "example": EXAMPLE,
    "user": USER,
    "library": LIBRARY,
    "fixed": b"versions 1 0 0\nsection l data process 4 4\nbytes l 0000002A\nfix l 0 section l\nexport v data l 0\n",
    "layer": b"""\
versions 1 0 0
library L 1 0 -
import v data strong
section p pattern process 4 4
bytes p 00000000
reexport v data v
export own data p 4
""",
    "layered": b"library P 1 0 -\nimport v data strong\nimport own data strong\nsection a data process 4 8\nfix a 4 import v\nfix a 0 import own\n",
    "stub": b"versions 1 0 0\nabsolute v data 0x000040B0\n",
    "itself": b"library P 1 0 -\nimport u data strong\nreexport u data u\n",
    "weak-symbol": b"library L 1 0 -\nimport w data weak\nsection a data process 4 4\nbytes a 00000007\nfix a 0 import w\n",
    "strong-symbol": b"library L 1 0 -\nimport w data strong\nsection a data process 4 4\nbytes a 00000007\nfix a 0 import w\n",
    "weak-library": b"library L 1 0 weak\nimport v data strong\nsection a data process 4 4\nbytes a 00000007\nfix a 0 import v\n",
    "before-a": b"library A 0 0 before\n",
    "before-b": b"library B 0 0 before\n",
    "old": b"library L 5 3 -\n",
    "new": b"library L 0 0 -\n",
    "grown": b"versions 5 3 0\n",
    # the third library is too old, the others fit
    "three": b"library A 0 0 -\nlibrary L 0 0 weak\nlibrary B 5 3 -\n",
    "older": b"versions 2 1 0\n",
    "odd-name": b"library a%b 0 0 -\n",
    "x=y": b"",
    # the library is placed first, and initialized after the fragment that needs it
    "first": b"library L 0 0 -\nsection a data process 4 16\nmain a 4\ninit a 0\nterm a 8\n",
    "second": b"library A 0 0 before\nsection l data process 4 16\nmain l 0\ninit l 4\nterm l 12\n",
}

FILES = {"vectors": VECTORS, "text": b"versions 1 0 0\n", "script": EXAMPLE}


def loading(words, **answer):
    """Returns the case of some words, with the files that they name."""
    paths = dict.fromkeys(word.partition("=")[2] for word in words)
    files, linked = ({path: table[path] for path in paths if path in table} for table in (FILES, SCRIPTS))
    return Case(" ".join(words), ["load", *words], files, linked=linked, **answer)


VECTORS_LOADED = b"""\
fragment x
section 0 at 00010000 size 8
00010000 00112233 44556677
section 1 at 00010010 size 16
00010010 00010000 00010010 00010004 00010010
main 00010010
"""

# The answer for a library with one word, 0000002A, and a fragment with the word's address.
USER_LOADED = b"""\
fragment L
section 0 at 00010000 size 4
00010000 0000002A
fragment A
section 0 at 00010010 size 4
00010010 00010000
"""

# Files, and what is printed.
LOADED = (
    (["x=vectors"], VECTORS_LOADED),
    (["it=example"], EXAMPLE_SHOWN),
    (["A=user", "L=library"], USER_LOADED),
    # a fragment that no other needs isn't prepared, so a file that isn't a container may be given for one
    (["A=user", "B=user", "C=text", "L=library"], USER_LOADED),
    (["A=user", "L=fixed"], USER_LOADED.replace(b"0000002A", b"0001002A")),
    (["L=fixed", "A=user"], b"fragment L\nsection 0 at 00010000 size 4\n00010000 0001002A\n"),
    # a library that re-exports the exports of another, beside its own
    (["A=layered", "P=layer", "L=library"], b"""\
fragment L
section 0 at 00010000 size 4
00010000 0000002A
fragment P
section 0 at 00010010 size 4
00010010 00000000
fragment A
section 0 at 00010020 size 8
00010020 00010014 00010000
"""),
    # a stub of absolute values, also if it is re-exported
    (["A=user", "L=stub"], b"fragment L\nfragment A\nsection 0 at 00010000 size 4\n00010000 000040B0\n"),
    (["A=layered", "P=layer", "L=stub"], b"""\
fragment L
fragment P
section 0 at 00010000 size 4
00010000 00000000
fragment A
section 0 at 00010010 size 8
00010010 00010004 000040B0
"""),
    (["A=weak-symbol", "L=library"], USER_LOADED.replace(b"00010010 00010000", b"00010010 00000007")),
    (["A=weak-library"], b"fragment A\nsection 0 at 00010000 size 4\n00010000 00000007\n"),
    (["A=first", "L=second"], b"""\
fragment L
section 0 at 00010000 size 16
00010000 00000000 00000000 00000000 00000000
fragment A
section 0 at 00010010 size 16
00010010 00000000 00000000 00000000 00000000
init A 00010010
init L 00010004
main 00010014
term L 0001000C
term A 00010018
"""),
    # the same fragments, with the other as the root
    (["L=second", "A=first"], b"""\
fragment A
section 0 at 00010000 size 16
00010000 00000000 00000000 00000000 00000000
fragment L
section 0 at 00010010 size 16
00010010 00000000 00000000 00000000 00000000
init A 00010000
init L 00010014
main 00010010
term L 0001001C
term A 00010008
"""),
    # names are escaped, and a path may contain a `=`
    (["a b=odd-name", "a%b=x=y"], b"fragment a%25b\nfragment a%20b\n"),
    # if two files have the same name, the first is used
    (["A=user", "L=library", "L=fixed", "A=old"], USER_LOADED),
)

CASES = [loading(words, stdout=printed) for words, printed in LOADED]

# Files, the error, and where it is. The row of library 0 begins at 88 (hex) without a section, at 98 with one without bytes, and at A8
# with one that has a word. Library rows have 24 bytes.
REFUSED = (
    (["A=user"], b"61 LibraryMissing in A library L", at_byte(b"the name of library 0, counted from 0", 0x98)),
    (["a b=odd-name"], b"61 LibraryMissing in a%20b library a%25b", at_byte(b"the name of library 0, counted from 0", 0x88)),
    (["A=strong-symbol", "L=library"], b"62 SymbolMissing in A library L symbol w", at_byte(b"the name of import 0, counted from 0", 0xC0)),
    (["A=old", "L=library"], b"63 ImplementationTooOld in A library L", at_version(5, 3, 1, 0, 0, 0x8C)),
    (["A=three", "B=older"], b"63 ImplementationTooOld in A library B", at_version(5, 3, 2, 1, 2, 0xBC)),
    (["A=new", "L=grown"], b"64 ImplementationTooNew in A library L", at_version(0, 0, 5, 3, 0, 0x8C)),
    (["P=itself"], b"65 ReexportLoop in P symbol u", at_byte(b"the name of import 0, counted from 0", 0xA0)),
    (["A=before-b", "B=before-a"], b"66 InitLoop in B", at_byte(b"the option byte of library 0, counted from 0", 0x9C)),
    (["x=missing"], b"71 FileUnreadable missing", MISSING),
    (["x="], b"71 FileUnreadable ", MISSING),
    (["x=a b"], b"71 FileUnreadable a%20b", MISSING),
    (["x=."], b"71 FileUnreadable .", READ_FOLDER),
    # all files are read, and before anything else is tested
    (["A=text", "B=user", "A=missing"], b"71 FileUnreadable missing", MISSING),
    (["x=text"], b"1 TooShort in x", b""),
    (["x=script"], b"2 BadTag in x", at_byte(b"the tag of the container header", 0)),
    # a weak library that can't be read is an error, too
    (["A=weak-library", "L=text"], b"1 TooShort in L", b""),
)

CASES += [loading(words, **refused(error, where)) for words, error, where in REFUSED]


def packed(*bytes_of_image):
    """Returns the end of the header of section 0, which makes it pattern-initialized data, the header of the loader section, and the
    packed bytes."""
    return (
        b"\x02\x01\x04\x00\xFF\xFF\xFF\xFF\x00\x00\x00\x00\x00\x00\x00\x00\x00\x00\x00\x00\x00\x00\x00\x54\x00\x00\x00\x70\x04\x04\x04\x00"
        + bytes(bytes_of_image)
    )


# Containers, an offset and the bytes that are changed there, the error, and where it is. Another fragment is given that nothing needs.
DAMAGED = (
    ("vectors", VECTORS, 64, b"\x04", b"7 BadSectionKind in x", at_byte(b"the kind of section 0, counted from 0", 64)),
    ("vectors", VECTORS, 248, b"\xFF\xFF", b"20 BadExportSection in x", at_byte(b"the section of export 0, counted from 0", 248)),
    # ten bytes of which nine are there; an opcode that isn't one; a count of 35 bits; eleven zeros of ten bytes; five bytes of ten
    ("packed", SPELLED, 64, packed(0x2A), b"21 Truncated in x", at_byte(b"at byte 0 of the packed data of section 0, counted from 0", 0x60)),
    ("packed", SPELLED, 64, packed(0xA0), b"22 BadOpcode in x", at_byte(b"at byte 0 of the packed data of section 0, counted from 0", 0x60)),
    ("packed", SPELLED, 64, b"\x02", b"23 CountTooLarge in x", at_byte(b"at byte 0 of the packed data of section 0, counted from 0", 0x60)),
    ("packed", SPELLED, 64, packed(0x0B), b"24 TooLong in x", at_byte(b"at byte 0 of the packed data of section 0, counted from 0", 0x60)),
    ("packed", SPELLED, 64, packed(*[0x21, 0xAA] * 5), b"25 TooShort in x",
     at_byte(b"at byte 10 of the packed data of section 0, counted from 0", 0x6A)),
    ("vectors", VECTORS, 228, b"\x4C\x00", b"31 BadOpcode in x", at_halfword(0, 1, 228)),
    # a third transition vector, past the end of the section
    ("vectors", VECTORS, 229, b"\x02", b"37 WordOutside in x", at_halfword(0, 1, 228, 16)),
    ("vectors", VECTORS, 228, b"\x60\x00", b"38 ImportOutside in x", at_halfword(0, 1, 228, 0)),
    # section 9 of three
    ("vectors", VECTORS, 228, b"\x62\x09", b"39 SectionOutside in x", at_halfword(0, 1, 228, 0)),
    # a program with one more halfword, which names section 367
    ("vectors", VECTORS, 223, b"\x02", b"39 SectionOutside in x", at_halfword(1, 1, 230, 16)),
    # more bytes than there are addresses below the limit
    ("vectors", VECTORS, 76, b"\x20\x00\x00\x00", b"67 NoRoom in x", at_byte(b"the size in memory of section 1, counted from 0", 76)),
    ("spelled", SPELLED, 48, b"\x0F\xFF\x00\x01", b"67 NoRoom in x", at_byte(b"the size in memory of section 0, counted from 0", 48)),
)

CASES += [
    Case(
        f"{error.decode()} by {other[-10:].hex()} at {at} of {name}", ["load", "x=a", "y=b"],
        {"a": changed(container, (at, other)), "b": VECTORS}, **refused(error, where),
    )
    for name, container, at, other, error, where in DAMAGED
]

# As many files as there may be, and one more.
CASES += [
    Case("256 files", ["load"] + ["x=vectors"] * 256, FILES, stdout=VECTORS_LOADED),
    Case(
        "257 files", ["load"] + ["x=vectors"] * 257, FILES, stdout=b"usage\n", stderr=Begins(b"error: ", (b"Usage: pef load <NAME=FILE>...\n",)),
        status=2,
    ),
]
