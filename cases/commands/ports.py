"""Real files, inputs and outputs: what can't be read or written, and what is kept exactly."""
from data import containers
from data.refusals import ENDLESS, FOLDER, FORBIDDEN, FULL, MISSING, READ_FOLDER, refused
from data.scripts import EXAMPLE, EXAMPLE_SHOWN, VECTORS
from suite import Case

LINKED = {"stdout": b"linked 140 bytes\n"}
OUTPUT_FAILED = b"The standard output failed, so a part of the answer may be missing.\n"

# A container of two sections, the second one with 17 megabytes at 256: its sizes and its offset are in the header at 68.
MANY = 17 << 20
LARGE = containers.VECTORS[:76] + 3 * MANY.to_bytes(4, "big") + (256).to_bytes(4, "big") + containers.VECTORS[92:] + bytes(6) + bytes(range(256)) * (MANY // 256)

CASES = [
    # a path keeps its spaces
    Case("spaces around a path that is written", ["link", "a", " b "], {"a": b"", "b": b"1", " b": b"2", "b ": b"3"}, after={" b ": containers.EMPTY}, **LINKED),
    Case("spaces around a path that is read", ["link", " a ", "out"], {" a ": b"", "a": VECTORS}, after={"out": containers.EMPTY}, **LINKED),
    *[Case(f"no file {path!r}", ["list", path], {" a ": containers.EMPTY}, **refused(b"71 FileUnreadable " + path.replace(" ", "%20").encode(), MISSING)) for path in ("a", " a", "a ")],
    Case("this folder", ["list", "."], {}, **refused(b"71 FileUnreadable .", READ_FOLDER)),
    Case("a file below no folder", ["list", "no/a"], {}, **refused(b"71 FileUnreadable no/a", MISSING)),
    Case("a file below a file", ["list", "a/b"], {"a": b""}, **refused(b"71 FileUnreadable a/b", MISSING)),
    Case("a link to no file", ["list", "a"], {"a": "none"}, **refused(b"71 FileUnreadable a", MISSING)),
    Case("a link to a file", ["list", "a"], {"a": "b", "b": b"Joy!"}, **refused(b"1 TooShort")),
    Case("a file that may not be read", ["list", "a"], {"a": b"text"}, closed=("a",), **refused(b"71 FileUnreadable a", FORBIDDEN)),
    Case("a file that was longer", ["link", "a", "out"], {"a": b"", "out": bytes(10_000)}, after={"out": containers.EMPTY}, **LINKED),
    Case("a file that is read and one that is written whole", ["extract", "a", "#0", "out"], {"a": LARGE}, stdout=b"extracted %d bytes\n" % len(LARGE), after={"out": LARGE}),
    Case("a full device for the container", ["link", "a", "/dev/full"], {"a": b""}, **refused(b"72 FileUnwritable /dev/full", FULL)),
    Case("this folder for the container", ["link", "a", "."], {"a": b""}, **refused(b"72 FileUnwritable .", FOLDER)),
    Case("a file below a file for the container", ["link", "a", "a/b"], {"a": b""}, **refused(b"72 FileUnwritable a/b", MISSING)),
    Case("a container that may not be written", ["link", "a", "out"], {"a": b"", "out": b"text"}, closed=("out",), **refused(b"72 FileUnwritable out", FORBIDDEN)),
    # the container is written, and the line about it isn't
    Case("a full device for a short answer", ["link", "a", "out"], {"a": VECTORS}, stderr=OUTPUT_FAILED, status=1, after={"out": containers.VECTORS}, printed_to="/dev/full"),
    Case("a full device for an error", ["list", "a"], {"a": b"Joy!"}, stderr=OUTPUT_FAILED, status=1, printed_to="/dev/full"),
    # the memory is more than is printed at once
    Case("a full device for a long answer", ["show"], stdin=b"section d data process 4 100000\n", stderr=OUTPUT_FAILED, status=1, printed_to="/dev/full"),
    # there is no explanation if nobody reads the output
    Case("an answer that nobody reads", ["list", "a"], {"a": containers.EMPTY}, status=1, printed_to="|"),
    Case("an error that nobody reads", ["list", "a"], {"a": b"Joy!"}, status=1, printed_to="|"),
    Case("a report that nobody reads", ["inspect", "a", "a"], {"a": bytes(100)}, status=1, printed_to="|"),
    Case("a device without an end", ["list", "/dev/zero"], {}, **refused(b"71 FileUnreadable /dev/zero", ENDLESS)),
    Case("a folder as the input", ["show"], stdin=".", **refused(b"73 InputUnreadable")),
    Case("a file as the input", ["show"], {"a": EXAMPLE}, stdin="a", stdout=EXAMPLE_SHOWN),
]
