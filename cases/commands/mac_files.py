"""`pef inspect` of a resource fork whose type list is outside: the library doesn't say where that error is. inspect.py and conformance/inspect
have the other errors of files of the classic Mac OS."""
from suite import Case, changed

# A resource fork of 44 bytes: no data, and a map of 28 bytes at 16, whose type list begins at its end. In MacBinary I the data fork, four
# bytes, is at 80 (hex), and this fork at 100.
FORK = changed(bytes(44), (3, b"\x10"), (7, b"\x10"), (15, b"\x1C"), (41, b"\x1C"))
FILE = changed(bytes(256 + 44), (1, b"\x01a"), (86, b"\x04"), (90, b"\x2C"), (128, b"text"), (256, FORK))

CASES = [
    Case(
        "a type list outside", ["inspect", "a"], {"a": FILE}, status=1,
        stdout=b"""file a size 300 format macbinary
00000080 fork data size 4
00000100 fork resource size 44
mac name a type %00%00%00%00 creator %00%00%00%00 created 1904-01-01T00:00:00 modified 1904-01-01T00:00:00
error 88 BadTypeList resource at 00000128
total containers 0 errors 1 notes 0
""",
    ),
]
