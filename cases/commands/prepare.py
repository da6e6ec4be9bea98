"""`pef prepare`: the memory of an application with its libraries and stubs, which fragment a name means, and errors."""
import base64

from assemble import Library, Loader, Section, container
from mac_binary import APPLICATION, cfrg, mac_binary, resource_fork

from data import applications as made
from data.applications import APP, APP_SHOWN, CORE, DATA, DRAW, THREE, TOOLS, TVECTOR, WEAK, fragment, in_one_fork, mac_file
from data.containers import VECTORS
from data.help import HELP
from data.mac_files import fragment_file
from data.refusals import FOLDER, MISSING, READ_FOLDER, at_byte, refused
from suite import Begins, Case, changed


def prepared(name, words, files, stdout):
    return Case(name, ["prepare", *words], files, stdout=stdout)


def sources(*rows):
    return b"".join(b"source %s %s\n" % row for row in rows)


ALL_IN_A = sources((b"Core", b"a"), (b"Tools", b"a"), (b"App", b"a"))
FORK = in_one_fork(*THREE)
TABLE = resource_fork([("cfrg", 0, cfrg(FORK[1]))])

# Words, files, and what is printed of `App`.
WHOLE = (
    ("three fragments in MacBinary", ["a"], {"a": mac_file(*THREE)}, APP_SHOWN + DRAW + ALL_IN_A),
    # the root is the first one, whatever order the others have
    ("the libraries in another order", ["a"], {"a": mac_file(THREE[0], THREE[2], THREE[1])}, APP_SHOWN + DRAW + ALL_IN_A),
    ("its resource fork in AppleDouble", ["d/a"], {"d/a": FORK[0], "d/._a": made.apple_double(TABLE)}, APP_SHOWN + DRAW + ALL_IN_A.replace(b" a\n", b" d/a\n")),
    ("three containers with names", ["App=a", "Tools=b", "Core=c"], {"a": APP, "b": TOOLS, "c": CORE},
     APP_SHOWN + DRAW + sources((b"Core", b"c"), (b"Tools", b"b"), (b"App", b"a"))),
    # a file's name ends before its last dot, if that isn't its first byte
    ("three containers with the names of their files", ["d/App.pef.bin", "e.f/Tools.pef", "Core"],
     {"d/App.pef.bin": APP, "e.f/Tools.pef": TOOLS, "Core": CORE},
     APP_SHOWN.replace(b"fragment App", b"fragment App.pef") + DRAW + sources((b"Core", b"Core"), (b"Tools", b"e.f/Tools.pef"), (b"App.pef", b"d/App.pef.bin"))),
    # `=` before a path takes it as it is
    ("paths with =", ["App=a=b", "=c=d/Tools", "Core=="], {"a=b": APP, "c=d/Tools": TOOLS, "=": CORE},
     APP_SHOWN + DRAW + sources((b"Core", b"="), (b"Tools", b"c=d/Tools"), (b"App", b"a=b"))),
    ("the root by its name", ["--root", "App", "a"], {"a": mac_file(*THREE[::-1])}, APP_SHOWN + DRAW + ALL_IN_A),
    # NAME is the name of the first fragment alone
    ("a name for the first of several", ["It=a"], {"a": mac_file(*THREE)}, (APP_SHOWN + DRAW + ALL_IN_A).replace(b" App", b" It")),
    ("files with libraries alone", ["App=a", "--library", "b", "--library=Core.pef"], {"a": APP, "b": mac_file(THREE[1]), "Core.pef": CORE},
     APP_SHOWN + DRAW + sources((b"Core", b"Core.pef"), (b"Tools", b"b"), (b"App", b"a"))),
    # hidden files, folders and files without a container are passed by
    ("a folder with libraries", ["-L", "d", "App=a"],
     {"a": APP, "d/Tools.pef": TOOLS, "d/Core.pef": CORE, "d/.Core.pef": b"", "d/notes.txt": b"some text", "d/e": None},
     APP_SHOWN + DRAW + sources((b"Core", b"d/Core.pef"), (b"Tools", b"d/Tools.pef"), (b"App", b"a"))),
)
CASES = [prepared(*it) for it in WHOLE]

# `Calc` is for CFM-68K and for PowerPC, and `Drv` is no container.
CALC_SHOWN = b"""\
fragment Calc
section 0 at 00010000 size 8
00010000 00112233 44556677
section 1 at 00010010 size 16
00010010 00010000 00010010 00010004 00010010
main 00010010
source Calc a
"""
CASES += [
    prepared("68K beside PowerPC", ["a"], {"a": fragment_file(VECTORS)}, CALC_SHOWN),
    # what `load` prints, and where the fragment comes from
    prepared("a bare container without stubs", ["--no-stubs", "Calc=a"], {"a": VECTORS}, CALC_SHOWN),
    prepared("a container without a table", ["a"], {"a": mac_binary("x", VECTORS, resource_fork([("vers", 1, bytes(8))]))}, CALC_SHOWN.replace(b"Calc", b"a")),
]

# An empty resource fork is none: the data fork is a container without a table.
CORE_SHOWN = b"""\
fragment a
section 0 at 00010000 size 8
00010000 00000001 00000002
"""
CASES += [
    prepared(f"an empty resource fork in {name}", [path], files, CORE_SHOWN + sources((b"a", path.encode())))
    for name, path, files in (
        ("MacBinary", "a", {"a": mac_binary("x", CORE, b"")}),
        ("AppleSingle", "a", {"a": made.apple_single(CORE, b"")}),
        ("AppleDouble", "d/a", {"d/a": CORE, "d/._a": made.apple_double(b"")}),
    )
]

# Packed data: four bytes as they are and four zeros, in twelve bytes of memory. The word at 4 gets an address.
PACKED = container(
    [Section(kind=2, raw=b"\x24\0\0\0\x07\x04", unpacked=8, total=12)],
    Loader(libraries=[Library(b"InterfaceLib", imports=[(b"draw", TVECTOR)])], programs=[(0, [made.step(4), made.imports_run(1)])]),
)[0]
CASES.append(prepared("packed data", ["a"], {"a": PACKED}, b"""\
fragment InterfaceLib
fragment a
section 0 at 00010000 size 12
00010000 00000007 F0000000 00000000
""" + DRAW + sources((b"a", b"a"))))

# A library that has to be there, and one that may be missing. Their symbols have numbers of their own.
EITHER = fragment(
    [Library(b"InterfaceLib", imports=[(b"draw", TVECTOR)]), Library(b"Sound%", options=WEAK, imports=[(b"a b", TVECTOR), (b"hum", TVECTOR)])],
    bytes(12), [made.imports_run(3)],
)
EITHER_SHOWN = b"""\
fragment InterfaceLib
fragment Sound%%25
fragment a
section 0 at 00010000 size 12
00010000 F0000000 %s %s
"""
CASES += [
    prepared("a weak library with a stub", ["a"], {"a": EITHER}, EITHER_SHOWN % (b"F0000010", b"F0000020") + DRAW
             + b"stub Sound%25\nsymbol F0000010 a%20b\nsymbol F0000020 hum\n" + sources((b"a", b"a"))),
    prepared("a weak library without a stub", ["--no-weak", "a"], {"a": EITHER},
             (EITHER_SHOWN % (b"00000000", b"00000000")).replace(b"fragment Sound%25\n", b"") + DRAW + sources((b"a", b"a"))),
]

# Two names for one container, of which both are needed.
TWICE = fragment([Library(b"One", imports=[(b"base", DATA)]), Library(b"Two", imports=[(b"base", DATA)])], bytes(8), [made.imports_run(2)])
CASES.append(prepared("two names for one container", ["a", "b"], {"a": TWICE, "b": mac_binary("b", CORE, resource_fork([("cfrg", 0, cfrg([("One", 0, 0, len(CORE)), ("Two", 0, 0, 0)]))]))}, b"""\
fragment One
section 0 at 00010000 size 8
00010000 00000001 00000002
fragment Two
section 0 at 00010010 size 8
00010010 00000001 00000002
fragment a
section 0 at 00010020 size 8
00010020 00010004 00010014
""" + sources((b"One", b"b"), (b"Two", b"b"), (b"a", b"a"))))

# Several libraries with one name, each with its version and a word that tells it from the others: the paths of files, and which is taken.
# The application was made with version 2 of the library, and takes 1 or later.
NEEDS = fragment([Library(b"Lib", current=2, old=1, imports=[(b"base", DATA)])], bytes(4), [made.imports_run(1)])


def library(word, versions):
    return fragment((), bytes(3) + bytes([word]), (), [(b"base", 0)], versions)


FIRST, SECOND, THIRD = library(1, (1, 0, 0)), library(2, (2, 0, 0)), library(3, (3, 3, 0))
CHOICES = (
    ("the newest", {"b": FIRST, "c": SECOND}, 2, b"c"),
    ("the newest, in the other order", {"b": SECOND, "c": FIRST}, 2, b"b"),
    # version 3 serves nobody who was made with version 2
    ("the newest that fits", {"b": THIRD, "c": FIRST, "d": SECOND}, 2, b"d"),
    ("the first of two that are equal", {"b": SECOND, "c": library(4, (2, 0, 0))}, 2, b"b"),
    ("one that can be read", {"b": SECOND[:50], "c": FIRST}, 1, b"c"),
    ("none that is an application", {"b": mac_file(("Lib", APPLICATION, SECOND)), "c": FIRST}, 1, b"c"),
    ("none for CFM-68K", {"b": changed(SECOND, (8, b"m68k")), "c": FIRST}, 1, b"c"),
)
CASES += [
    prepared(
        f"of several libraries with one name {name}", ["a", *(f"Lib={path}" for path in files)], {"a": NEEDS, **files},
        b"fragment Lib\nsection 0 at 00010000 size 4\n00010000 0000000%d\nfragment a\nsection 0 at 00010010 size 4\n00010010 00010000\n" % word
        + sources((b"Lib", taken), (b"a", b"a")),
    )
    for name, files, word, taken in CHOICES
]
# An application of the library's name isn't taken for it, so there is a stub.
CASES.append(prepared("an application isn't a library", ["a", "b"], {"a": NEEDS, "b": mac_file(("Lib", APPLICATION, SECOND))},
                      b"fragment Lib\nfragment a\nsection 0 at 00010000 size 4\n00010000 F0000000\nstub Lib\nsymbol F0000000 base\n" + sources((b"a", b"a"))))

# An application in JSON: its first word is `draw` of InterfaceLib, F0000000, and its second one its own address.
DRAWING = fragment([Library(b"InterfaceLib", imports=[(b"draw", TVECTOR)])], bytes(8), [made.imports_run(1), made.SECTION_0], main=(0, 4))
JSON = (
    '{"fragment":"InterfaceLib","source":null,"source_bytes":null,"is_stub":true,"sections":[],"imports":[],'
    '"exports":[{"name":"draw","class":2,"class_text":"tvector","address":4026531840}],"relocations":[],"entries":{"main":null,"init":null,"term":null}}\n'
    '{"fragment":"App","source":"d/App","source_bytes":"d/App","is_stub":false,'
    '"sections":[{"number":0,"kind":1,"kind_text":"data","share":1,"share_text":"process","address":65536,"size":8%s}],'
    '"imports":[{"name":"draw","library":"InterfaceLib","class":2,"class_text":"tvector","weak":false,"address":4026531840}],"exports":[],'
    '"relocations":[{"section":0,"words":[{"offset":0,"kind":"import","number":0},{"offset":4,"kind":"section","number":0}]}],'
    '"entries":{"main":65540,"init":null,"term":null}}\n'
    '{"stub":"InterfaceLib","symbols":[{"name":"draw","class":2,"class_text":"tvector","address":4026531840}]}\n'
)
MEMORY = bytes.fromhex("F000000000010000")
CASES += [
    prepared("JSON", ["--json", "d/App"], {"d/App": DRAWING}, (JSON % "").encode()),
    prepared("JSON with bytes", ["d/App", "--bytes", "--json"], {"d/App": DRAWING}, (JSON % f',"bytes":"{base64.b64encode(MEMORY).decode()}"').encode()),
    Case("JSON with files", ["prepare", "--json", "-o", "m", "d/App"], {"d/App": DRAWING, "m": None}, stdout=(JSON % ',"file":"m/App.0.bin"').encode(), after={"m/App.0.bin": MEMORY}),
    Case("an error with JSON", ["prepare", "--json", "--no-stubs", "d/App"], {"d/App": DRAWING}, stdout=b"refused 61 LibraryMissing in App library InterfaceLib\n",
         stderr=Begins(HELP[61]), status=1),
]

# Words, files, what is printed in part, and what is written: the memory of sections, as the lines above have it.
CORE_MEMORY = bytes.fromhex("0000000100000002")
WRITTEN = (
    ("the files of three fragments in MacBinary", ["-o", "m", "a"], {"a": mac_file(*THREE), "m": None}, (b'"file":"m/Core.0.bin"', b'"file":"m/Tools.0.bin"', b'"file":"m/App.0.bin"'),
     {"m/Core.0.bin": CORE_MEMORY, "m/Tools.0.bin": bytes.fromhex("000100040000002A"), "m/App.0.bin": bytes.fromhex("F00000000001001400010020")}),
    ("the files of two sections", ["-o", ".", "Calc=a"], {"a": VECTORS}, (b'"address":65536,"size":8,"file":"./Calc.0.bin"}', b'"address":65552,"size":16,"file":"./Calc.1.bin"}'),
     {"Calc.0.bin": bytes.fromhex("0011223344556677"), "Calc.1.bin": bytes.fromhex("00010000000100100001000400010010")}),
    ("the file of a section without bytes", ["a", "-om"], {"a": container([Section(raw=b"")], Loader())[0], "m": None}, (b'"size":0,"file":"m/a.0.bin"}',), {"m/a.0.bin": b""}),
    ("over a file", ["-o", "m", "a"], {"a": CORE, "m/a.0.bin": b"an older file"}, (b'"file":"m/a.0.bin"',), {"m/a.0.bin": CORE_MEMORY}),
    # a name that a path can't have, and one that JSON can't have as it is
    ("odd names of files", ["-o", 'a "%', 'a/b "%\\=c'], {"c": CORE, 'a "%': None}, (b'"file":"a%20\\"%25/a%252Fb%2520\\"%2525\\\\.0.bin"',), {'a "%/a%2Fb%20"%25\\.0.bin': CORE_MEMORY}),
)
CASES += [Case(name, ["prepare", "--json", *words], files, stdout=Begins(b'{"fragment":', printed), after=written) for name, words, files, printed, written in WRITTEN]
# A file that can't be written, after two that were.
CASES.append(Case("a file that is a folder", ["prepare", "--json", "-o", "m", "a"], {"a": mac_file(*THREE), "m/App.0.bin": None}, **refused(b"72 FileUnwritable m/App.0.bin", FOLDER),
                  after={"m/Core.0.bin": CORE_MEMORY, "m/Tools.0.bin": bytes.fromhex("000100040000002A")}))

# Another root: what it doesn't need is left out.
CASES.append(prepared("a library as the root", ["--root", "Core", "a"], {"a": mac_file(THREE[1], THREE[2])}, b"""\
fragment Core
section 0 at 00010000 size 8
00010000 00000001 00000002
""" + sources((b"Core", b"a"))))

# Words, files, and the error: its line, and where it is. The parts of App's container are at these offsets.
AT = container(
    [Section(raw=bytes(12))],
    Loader(libraries=[Library(b"InterfaceLib", imports=[(b"draw", TVECTOR)]), Library(b"Tools", imports=[(b"answer", DATA)])], programs=[(0, [made.imports_run(2), made.SECTION_0])]),
)[1]
NO_LIBRARY = at_byte(b"the name of library 0, counted from 0", AT["library 0"])
REFUSED = (
    (["missing"], {}, b"71 FileUnreadable missing", MISSING),
    (["a", "--library", "b c"], {"a": APP}, b"71 FileUnreadable b%20c", MISSING),
    (["App="], {}, b"71 FileUnreadable ", MISSING),
    (["d"], {"d": None}, b"71 FileUnreadable d", READ_FOLDER),
    (["a", "-L", "no folder"], {"a": APP}, b"71 FileUnreadable no%20folder", MISSING),
    # all files are read before any of them is looked into
    (["text", "missing"], {"text": b"some text"}, b"71 FileUnreadable missing", MISSING),
    (["text"], {"text": b"some text"}, b"80 NoContainer text", b""),
    (["a", "some text"], {"a": APP, "some text": b"some text"}, b"80 NoContainer some%20text", b""),
    (["--root", "Nobody", "a"], {"a": mac_file(*THREE)}, b"60 RootMissing", b""),
    (["--root", "Tools", "App=a", "--library", "b"], {"a": APP, "b": mac_file(THREE[1])}, b"60 RootMissing", b""),
    (["--root", "app", "a"], {"a": mac_file(*THREE)}, b"60 RootMissing", b""),
    (["--no-stubs", "App=a"], {"a": APP}, b"61 LibraryMissing in App library InterfaceLib", NO_LIBRARY),
    (["--no-stubs", "a"], {"a": mac_file(*THREE)}, b"61 LibraryMissing in App library InterfaceLib", NO_LIBRARY),
    # a refused preparation writes nothing
    (["--json", "-o", "m", "--no-stubs", "App=a"], {"a": APP, "m": None}, b"61 LibraryMissing in App library InterfaceLib", NO_LIBRARY),
    (["--json", "-o", "no folder", "App=a"], {"a": CORE}, b"72 FileUnwritable no%20folder/App.0.bin", MISSING),
    (["App=a"], {"a": changed(VECTORS, (64, b"\x04"))}, b"7 BadSectionKind in App", at_byte(b"the kind of section 0, counted from 0", 64)),
)
CASES += [Case(f"{words}: {error.decode()}", ["prepare", *words], files, **refused(error, where)) for words, files, error, where in REFUSED]

# A file with members for CFM-68K alone.
CASES.append(Case("CFM-68K alone", ["prepare", "a"], {"a": fragment_file(VECTORS, (612, b"m68k"), (660, b"m68k"))}, **refused(b"80 NoContainer a")))
# A damaged library that the root doesn't need, and one that it needs.
CASES += [
    prepared("a damaged library that isn't needed", ["a", "b"], {"a": CORE, "b": changed(TOOLS, (8, b"XXXX"))}, CORE_SHOWN + sources((b"a", b"a"))),
    Case("a damaged library that is needed", ["prepare", "App=a", "Tools=b"], {"a": APP, "b": TOOLS[:50]}, stdout=b"refused 1 TooShort in Tools\n", stderr=HELP[1], status=1),
]

# A table of fragments that is cut, and a resource fork that is.
CASES += [
    Case(f"{name}", ["prepare", "a"], {"a": file}, stdout=b"refused %s a\n" % error, stderr=Begins(HELP[int(error.split()[0])]), status=1)
    for name, file, error in (
        ("a cut table", fragment_file(VECTORS, (531, b"\x1F")), b"94 FragmentTableCut"),
        ("a cut map", fragment_file(VECTORS, (516, b"\x01")), b"87 ResourceMapOutside"),
    )
]
