"""`pef stubs`: containers of the libraries that fragments lack, and errors."""
from assemble import Library, Loader, container
from mac_binary import mac_binary

from data import applications as made
from data.applications import APP, CORE, DATA, THREE, TOOLS, TVECTOR, WEAK, fragment, mac_file
from data.refusals import FOLDER, MISSING, refused
from suite import Begins, Case


def stub(symbols, versions):
    """Returns the container of absolute symbols: names, classes and numbers. All of them are in one slot of the export table."""
    return container([], Loader(exports=[(name, kind, -2, number) for name, kind, number in symbols], power=0), versions)[0]


# The stub of InterfaceLib for `App`, whose entry has no versions.
DRAW = stub([(b"draw", TVECTOR, 0xF0000000)], (0, 0, 0))
DRAW_PRINTED = b"stub InterfaceLib 1 ./InterfaceLib.pef\nsymbol F0000000 draw\n"

# Two fragments that lack two libraries. The class of a symbol is that of the first import, and the versions fit both entries.
BOTH = (
    fragment([Library(b"L", 5, 3, imports=[(b"f", TVECTOR)]), Library(b"M", imports=[(b"x", DATA)])], bytes(8), [made.imports_run(2)]),
    fragment([Library(b"L", 2, 0, options=WEAK, imports=[(b"f", DATA), (b"g", 0)])], bytes(8), [made.imports_run(2)]),
)
BOTH_FILES = {"a": BOTH[0], "b": BOTH[1]}


def both(first, step):
    """Returns the stubs of L and M with numbers from one on."""
    return {
        "L.pef": stub([(b"f", TVECTOR, first), (b"g", 0, first + step)], (5, 2, 3)),
        "M.pef": stub([(b"x", DATA, first + 2 * step)], (0, 0, 0)),
    }


# Words, files, what is printed, and what is written.
WRITTEN = (
    ("a library that is lacking", ["a"], {"a": mac_file(*THREE)}, DRAW_PRINTED, {"InterfaceLib.pef": DRAW}),
    # two of three files lack the third, and all of them a library of the system
    ("a library for two files", ["App=a", "Tools=b"], {"a": APP, "b": TOOLS}, DRAW_PRINTED + b"stub Core 1 ./Core.pef\nsymbol F0000010 base\n",
     {"InterfaceLib.pef": DRAW, "Core.pef": stub([(b"base", DATA, 0xF0000010)], (0, 0, 0))}),
    ("a folder", ["-o", "d", "a"], {"a": mac_file(*THREE), "d": None}, DRAW_PRINTED.replace(b"./", b"d/"), {"d/InterfaceLib.pef": DRAW}),
    ("over a file", ["a"], {"a": mac_file(*THREE), "InterfaceLib.pef": b"old"}, DRAW_PRINTED, {"InterfaceLib.pef": DRAW}),
    # an empty resource fork is none
    ("an empty resource fork", ["a"], {"a": mac_binary("x", TOOLS, b"")}, b"stub Core 1 ./Core.pef\nsymbol F0000000 base\n", {"Core.pef": stub([(b"base", DATA, 0xF0000000)], (0, 0, 0))}),
    ("nothing is lacking", ["Core=a"], {"a": CORE}, b"", {}),
    ("two libraries", ["a", "b"], BOTH_FILES, b"""\
stub L 2 ./L.pef
symbol F0000000 f
symbol F0000010 g
stub M 1 ./M.pef
symbol F0000020 x
""", both(0xF0000000, 16)),
    ("other numbers", ["--first", "1000", "--step=4", "a", "b"], BOTH_FILES, b"""\
stub L 2 ./L.pef
symbol 00001000 f
symbol 00001004 g
stub M 1 ./M.pef
symbol 00001008 x
""", both(0x1000, 4)),
    # each entry for L in this fragment is weak
    ("a weak library", ["b"], BOTH_FILES, b"stub L 2 ./L.pef\nsymbol F0000000 f\nsymbol F0000010 g\n",
     {"L.pef": stub([(b"f", DATA, 0xF0000000), (b"g", 0, 0xF0000010)], (2, 2, 0))}),
    ("no weak library", ["--no-weak", "b"], BOTH_FILES, b"", {}),
    ("a library that is weak for one alone", ["--no-weak", "a", "b"], BOTH_FILES, b"""\
stub L 2 ./L.pef
symbol F0000000 f
symbol F0000010 g
stub M 1 ./M.pef
symbol F0000020 x
""", both(0xF0000000, 16)),
    # a name that a path can't have, and symbols that a line can't
    ("odd names", ["a"], {"a": fragment([Library(b"a/b c%", imports=[(b"\n", DATA), (b"%", DATA)])], bytes(8), [made.imports_run(2)])},
     b"stub a/b%20c%25 2 ./a%252Fb%2520c%2525.pef\nsymbol F0000000 %0A\nsymbol F0000010 %25\n",
     {"a%2Fb%20c%25.pef": stub([(b"\n", DATA, 0xF0000000), (b"%", DATA, 0xF0000010)], (0, 0, 0))}),
    ("memory", ["--memory", "a"], {"a": mac_file(*THREE)}, b"stub InterfaceLib 1 ./InterfaceLib.pef\n", {"InterfaceLib.pef": Begins(b"Joy!peffpwpc", (b"\x44\0\0\2\x4E\x80\0\x20", b"draw"))}),
)
CASES = [Case(name, ["stubs", *words], files, stdout=printed, after=written) for name, words, files, printed, written in WRITTEN]

# Words, files, and the error. No file has changed afterwards.
REFUSED = (
    (["missing"], {}, b"71 FileUnreadable missing", MISSING),
    (["a", "text"], {"a": APP, "text": b"some text"}, b"80 NoContainer text", b""),
    (["-o", "no folder", "App=a"], {"a": mac_file(*THREE)}, b"72 FileUnwritable no%20folder/InterfaceLib.pef", MISSING),
    (["a"], {"a": mac_file(*THREE), "InterfaceLib.pef": None}, b"72 FileUnwritable ./InterfaceLib.pef", FOLDER),
)
CASES += [Case(f"{words}: {error.decode()}", ["stubs", *words], files, **refused(error, where)) for words, files, error, where in REFUSED]
# The second symbol has no number of 32 bits.
CASES.append(Case("numbers past the last", ["stubs", "--first", "FFFFFFF0", "b"], BOTH_FILES, stdout=b"refused 214 PastLastNumber\n", stderr=Begins(b""), status=1))
