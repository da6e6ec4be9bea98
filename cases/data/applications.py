"""Applications with their libraries, for `pef prepare` and `pef stubs`: containers by conformance/assemble.py, in files by
examples/mac_binary.py. Both write what the formats' descriptions say."""
import struct

from assemble import Library, Loader, Section, container
from mac_binary import APPLICATION, IMPORT_LIBRARY, cfrg, mac_binary, resource_fork

DATA, TVECTOR = 1, 2
STRONG, WEAK = 0, 0x40
# Halfwords of relocation programs: the next N imports from import 0 on, section 0, and a step of N bytes.
SECTION_0 = 0x6600


def imports_run(count):
    return 0x4A00 | count - 1


def step(count):
    return 0x8000 | count - 1


def fragment(libraries=(), data=b"", halfwords=(), exports=(), versions=(0, 0, 0), main=(-1, 0)):
    """Returns the bytes of a container with a section of data, if it has some. Exports are of class data, by name and offset in it."""
    loader = Loader(
        libraries=list(libraries), programs=[(0, list(halfwords))] if halfwords else [],
        exports=[(name, DATA, 0, value) for name, value in exports], main=main,
    )
    return container([Section(raw=data)] if data else [], loader, versions)[0]


# `App` needs `draw` of InterfaceLib, which is in no file, and `answer` of Tools. Its third word is its own address, and its main symbol
# is there. Tools needs `base` of Core.
APP = fragment(
    [Library(b"InterfaceLib", imports=[(b"draw", TVECTOR)]), Library(b"Tools", imports=[(b"answer", DATA)])], bytes(12), [imports_run(2), SECTION_0], main=(0, 8),
)
TOOLS = fragment([Library(b"Core", imports=[(b"base", DATA)])], bytes(4) + b"\0\0\0\x2A", [imports_run(1)], [(b"answer", 4)])
CORE = fragment((), b"\0\0\0\1\0\0\0\2", (), [(b"base", 4)])
# What their memory becomes.
APP_SHOWN = b"""\
fragment InterfaceLib
fragment Core
section 0 at 00010000 size 8
00010000 00000001 00000002
fragment Tools
section 0 at 00010010 size 8
00010010 00010004 0000002A
fragment App
section 0 at 00010020 size 12
00010020 F0000000 00010014 00010020
main 00010028
"""
DRAW = b"stub InterfaceLib\nsymbol F0000000 draw\n"


def in_one_fork(*fragments):
    """Returns a data fork with some containers, and the rows of `cfrg` for them. Each is given by its name, usage and container."""
    data, rows = b"", []
    for name, usage, contents in fragments:
        rows.append((name, usage, len(data), len(contents)))
        data += contents
    return data, rows


def mac_file(*fragments):
    """Returns a file in MacBinary with some fragments: their names, usages and containers."""
    data, rows = in_one_fork(*fragments)
    return mac_binary("a", data, resource_fork([("cfrg", 0, cfrg(rows))]))


def apple_double(resources):
    """Returns a file in AppleDouble with a resource fork."""
    return struct.pack(">II16xHIII", 0x00051607, 0x00020000, 1, 2, 38, len(resources)) + resources


def apple_single(data, resources):
    """Returns a file in AppleSingle with both forks."""
    return struct.pack(">II16xH6I", 0x00051600, 0x00020000, 2, 1, 50, len(data), 2, 50 + len(data), len(resources)) + data + resources


THREE = (("App", APPLICATION, APP), ("Tools", IMPORT_LIBRARY, TOOLS), ("Core", IMPORT_LIBRARY, CORE))
