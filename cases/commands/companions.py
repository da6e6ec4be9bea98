"""`pef inspect` and `pef extract` of a data fork whose resource fork is in another file."""
from data import mac_files
from data.help import HELP
from suite import Begins, Case

TOTAL = b"total containers 0 errors 0 notes 0\n"
# A data fork of 264 bytes without a container, and the report on it.
DATA_FORK = bytes(264)
DATA_REPORT = b"file d/a size 264 format other\n" + TOTAL

FORK = mac_files.FRAGMENT_FORK
# The report on the resource fork, after the path. None of the three fragments has a container. Those of the data fork are at offsets in
# the data file, and `Drv` is the resource at 200.
FORK_REPORT = b""" size 273 format resources data d/a
00000000 fork resource size 273
00000014 resource cfrg 0 size 176 attributes 0
000000C8 resource ndrv 128 size 3 attributes 0
00000034 fragment 0 Calc architecture m68k usage 0 library where 1 data container 00000000 size 264 versions - - current 0 olddef 0 \
level 0 stack 0 directory 0 place 00000000 length 0 space 0 instance 0 extensions 0
00000064 fragment 1 Calc architecture pwpc usage 0 library where 1 data container 00000008 size 250 versions - - current 0 olddef 0 \
level 0 stack 0 directory 0 place 00000008 length 250 space 0 instance 0 extensions 0
00000094 fragment 2 Drv architecture pwpc usage 0 library where 2 resource container 000000C8 size 3 versions - - current 0 olddef 0 \
level 0 stack 0 directory 0 place 6E647276 length 128 space 0 instance 0 extensions 0
error 80 NoContainer fragment 0 at 00000034
error 80 NoContainer fragment 1 at 00000064
error 80 NoContainer fragment 2 at 00000094
total containers 0 errors 3 notes 0
"""


def inspected(name, words, beside, printed, status):
    return Case(name, ["inspect", *words], {"d/a": DATA_FORK, **beside}, stdout=printed, status=status)


CASES = []


def report_on(path):
    """Returns the report on a data fork without a container."""
    return b"file %s size 264 format other\n" % path + TOTAL


# The places where the resource fork of the file `d/a` is looked for, in their order, as paths and as they are printed.
PLACES = [
    ("d/._a", b"d/._a"),
    ("d/__MACOSX/._a", b"d/__MACOSX/._a"),
    ("d/.AppleDouble/a", b"d/.AppleDouble/a"),
    ("d/.rsrc/a", b"d/.rsrc/a"),
    ("d/a.rsrc", b"d/a.rsrc"),
    ("d/%a", b"d/%25a"),
    ("d/resource.frk/a", b"d/resource.frk/a"),
    ("d/.resource/a", b"d/.resource/a"),
    ("__MACOSX/d/._a", b"__MACOSX/d/._a"),
]
# Each of them is taken before all later ones.
CASES += [
    inspected(f"beside {path} and what is looked for later", ["d/a"], {it: FORK for it, _ in PLACES[number:]}, DATA_REPORT + b"file " + printed + FORK_REPORT, 1)
    for number, (path, printed) in enumerate(PLACES)
]

# Files beside the file `d/a`, and the path of the resource fork that is reported. Files without a resource fork are passed over.
CASES += [
    inspected(f"beside {' '.join(beside)}", ["d/a"], beside, DATA_REPORT + (b"file " + place + FORK_REPORT if place else b""), 1 if place else 0)
    for beside, place in (
        ({"d/._a": b"text", "d/.rsrc/a": FORK}, b"d/.rsrc/a"),
        ({"d/._a": b"", "._a": FORK, "a.rsrc": FORK}, b""),
        ({"__MACOSX/._a": FORK}, b""),
    )
]

# A resource fork that is damaged isn't passed over: its errors are reported, and a fragment's name is refused by the first one. The entry
# of AppleDouble has a byte that isn't there; the header is cut; the fork has 17 bytes of its map.
DOUBLE = b"\x00\x05\x16\x07\x00\x02" + bytes(18) + b"\x00\x01\x00\x00\x00\x02\x00\x00\x00\x26\x00\x00\x00\x01"
for place, damaged, lines, refusal in (
    ("d/._a", DOUBLE, b"size 38 format appledouble data d/a\nmac\nerror 85 AppleEntryOutside fork 0 at 0000001E\n", b"85 AppleEntryOutside"),
    ("d/._a", DOUBLE[:25], b"size 25 format damaged data d/a\nerror 82 AppleHeaderCut fork\n", b"82 AppleHeaderCut"),
    ("d/a.rsrc", FORK[:220], b"size 220 format resources data d/a\n00000000 fork resource size 220\nerror 87 ResourceMapOutside resource at 00000004\n",
     b"87 ResourceMapOutside"),
):
    beside = {"d/a": DATA_FORK, place: damaged, "d/%a": FORK}
    CASES += [
        Case(f"a companion with {refusal.decode()}", ["inspect", "d/a"], beside, status=1,
             stdout=DATA_REPORT + b"file " + place.encode() + b" " + lines + b"total containers 0 errors 1 notes 0\n"),
        Case(f"extract by a companion with {refusal.decode()}", ["extract", "d/a", "Calc", "out"], beside, status=1,
             stdout=b"refused " + refusal + b"\n", stderr=HELP[int(refusal[:2])], after={}),
    ]

# Names and paths that are nearly as long as the system allows.
LONG, LONG_NAME = "".join("%s/" % (letter * 240) for letter in "abcdefghijklmno"), 240 * "z"
CASES += [
    Case(f"the companion of a long path in {folder}", ["inspect", LONG + LONG_NAME], {LONG + LONG_NAME: DATA_FORK, place: FORK}, status=1,
         stdout=b"".join((report_on((LONG + LONG_NAME).encode()), b"file ", place.encode(), FORK_REPORT.replace(b"d/a", (LONG + LONG_NAME).encode()))))
    for folder, place in ((".resource", LONG + ".resource/" + LONG_NAME), ("__MACOSX", "__MACOSX/" + LONG + "._" + LONG_NAME))
]


# An archive by macOS has one folder `__MACOSX` at its top, which mirrors the others. The nearest one is taken. None is looked for
# before a `..`, since its folders wouldn't be those of the path, and a `/` stays in front.
TREE = {"x/y/z/a": DATA_FORK, "__MACOSX/x/y/z/._a": FORK, "x/__MACOSX/y/z/._a": b"text", "x/y/__MACOSX/z/._b": FORK}
CASES += [
    Case(f"the tree of an archive, {path.decode()}", ["inspect", path], {**TREE, **beside}, stdout=report_on(path) + (b"file " + place + FORK_REPORT.replace(b"d/a", path) if place else b""), status=1 if place else 0)
    for path, beside, place in (
        (b"x/y/z/a", {}, b"__MACOSX/x/y/z/._a"),
        (b"x/y/z/a", {"x/__MACOSX/y/z/._a": FORK}, b"x/__MACOSX/y/z/._a"),
        (b"x/y/z/a", {"x/__MACOSX/y/z/._a": FORK, "x/y/__MACOSX/z/._a": FORK}, b"x/y/__MACOSX/z/._a"),
        (b"./x/y/z/a", {}, b"./__MACOSX/x/y/z/._a"),
        (b"x/../x/y/z/a", {}, b"x/../__MACOSX/x/y/z/._a"),
        (b"x/y/../y/z/a", {}, b""),
        (b"x/../x/y/z/a", {"x/__MACOSX/y/z/._a": FORK}, b"x/../x/__MACOSX/y/z/._a"),
        (b"x//y/z/a", {}, b""),
    )
]

# In JSON the path of the data fork follows that of the file.
CASES.append(inspected(
    "two objects", ["--json", "d/a"], {"d/%a": FORK}, status=1,
    printed=Begins(
        b'{"file":"d/a","file_bytes":"d/a","size":264,"format":"other","forks":[],"mac":null,"resources":[],"fragments":[],"containers":[],"errors":[],"notes":[]}\n'
        b'{"file":"d/%a","file_bytes":"d/%25a","data":"d/a","data_bytes":"d/a","size":273,"format":"resources","forks":[{"kind":"resource","offset":0,"length":273}],'
        b'"mac":null,"resources":[{"type":"cfrg","id":0,"name":null,"offset":20,"length":176,"attributes":0},'
        b'{"type":"ndrv","id":128,"name":null,"offset":200,"length":3,"attributes":0}],'
        b'"fragments":[{"name":"Calc","offset":0,"size":264,'
    ),
))

# No other file is looked for if the name is that of a companion, and the standard input has none.
CASES += [
    inspected(f"alone: {path}", [path], {path: b"text", beside: FORK}, f"file {path} size 4 format other\n".encode() + TOTAL, 0)
    for path, beside in (("._b", "._._b"), ("d/._b", "d/._._b"))
]
CASES.append(Case(
    "alone: the standard input", ["inspect", "-"], {"._-": FORK}, b"text",
    stdout=b"file - size 4 format other\n" + TOTAL,
))

# The file of `--resources` is taken whatever it is, and no place is looked at. It isn't read if the data fork can't be read.
UNREAD = b"file none\nerror 71 FileUnreadable reason missing\ntotal containers 0 errors 1 notes 0\n"
TEXT_REPORT = b"file t size 4 format other data d/a\n" + TOTAL
CASES += [
    inspected("a given text", ["--resources", "t", "d/a"], {"t": b"text", "d/._a": FORK}, DATA_REPORT + TEXT_REPORT, 0),
    inspected("a given file that is missing", ["d/a", "--resources=none"], {"d/._a": FORK}, DATA_REPORT + UNREAD, 1),
    inspected("a given resource fork", ["--resources", "r", "d/a"], {"r": FORK, "d/._a": b"text"}, DATA_REPORT + b"file r" + FORK_REPORT, 1),
    inspected("a given resource fork of a missing file", ["--resources", "r", "none"], {"r": FORK}, UNREAD, 1),
]

# A place of the resource fork, the name of a fragment, and the bytes of OUT. `Calc` is in the data fork from 8 on, and `Drv` is a
# resource. A number is that of a container of the file alone.
CASES += [
    Case(
        f"extract {name} by {place}", ["extract", "d/a", name, "out"], {"d/a": DATA_FORK, place: FORK},
        stdout=b"refused 80 NoContainer\n" if out is None else b"extracted %d bytes\n" % len(out),
        stderr=HELP[80] if out is None else b"", status=1 if out is None else 0, after={} if out is None else {"out": out},
    )
    for place, name, out in (
        ("d/._a", "Calc", bytes(250)),
        ("d/%a", "Drv", b"drv"),
        ("d/._a", "calc", None),
        ("__MACOSX/d/._a", "Calc", bytes(250)),
        ("._a", "Calc", None),
        ("d/._a", "#0", None),
    )
]
