"""`pef show`: the memory of a script's container, and the errors of its closure. Those of scripts are in details.py."""
from data.refusals import at_byte, at_version, refused
from data.scripts import EXAMPLE, EXAMPLE_SHOWN, USER, VECTORS
from suite import Case

# Scripts, and what is printed.
SHOWN = (
    ("one section", EXAMPLE, EXAMPLE_SHOWN),
    ("an empty script", b"", b"fragment it\n"),
    ("three bytes", b"# no line\n\nsection d data process 4 3\nbytes d aAfF", b"fragment it\nsection 0 at 00010000 size 3\n00010000 AAFF00\n"),
    ("transition vectors", VECTORS, b"""\
fragment it
section 0 at 00010000 size 8
00010000 00112233 44556677
section 1 at 00010010 size 16
00010010 00010000 00010010 00010004 00010010
main 00010010
"""),
    ("entry points at the end of a line and of a section", b"""\
section c code global 4 17
section d data process 8 0
section e const protected 0 2
bytes e BEEF
main c 16
init d 0
term e 2""", b"""\
fragment it
section 0 at 00010000 size 17
00010000 00000000 00000000 00000000 00000000
00010010 00
section 1 at 00010100 size 0
section 2 at 00010020 size 2
00010020 BEEF
init it 00010100
main 00010010
term it 00010022
"""),
    ("fixups by two sections", b"""\
section a data process 4 8
section b data process 4 4
bytes a FFFFFFFF00000001
fix a 0 section a
fix a 4 section b
bytes b 00000002
fix b 0 section a
""", b"""\
fragment it
section 0 at 00010000 size 8
00010000 0000FFFF 00010011
section 1 at 00010010 size 4
00010010 00010002
"""),
    ("the same contents in another order", b"""\
section a data process 4 8
section b data process 4 4
fix b 0 section a
fix a 4 section b
bytes b 00000002
fix a 0 section a
bytes a FFFFFFFF00000001
""", b"""\
fragment it
section 0 at 00010000 size 8
00010000 0000FFFF 00010011
section 1 at 00010010 size 4
00010010 00010002
"""),
    ("a packed section", EXAMPLE.replace(b"data", b"pattern"), EXAMPLE_SHOWN),
    ("a transition vector below a fixup", b"section d data process 4 16\nfix d 8 section d\ntvector d 0 d d\n", b"""\
fragment it
section 0 at 00010000 size 16
00010000 00010000 00010000 00010000 00000000
"""),
    ("its own import", b"""\
versions 1 0 0
library it 1 0 -
import u data strong
section m data process 4 4
bytes m 00000001
fix m 0 import u
export u data m 0
""", b"fragment it\nsection 0 at 00010000 size 4\n00010000 00010001\n"),
    # an export in the first section, and one at the end of the second, and a first word that wraps
    ("its own imports in two sections", b"""\
library it 0 0 weak
import a data strong
import b code weak
section c code process 4 20
section d data process 4 8
bytes d FFFFFFFF00000002
fix d 0 import b
fix d 4 import a
export a data d 8
export b code c 4
main d 0
""", b"""\
fragment it
section 0 at 00010000 size 20
00010000 00000000 00000000 00000000 00000000
00010010 00000000
section 1 at 00010020 size 8
00010020 00010003 0001002A
main 00010020
"""),
    ("libraries without imports, one of them absent", b"""\
library it 0 0 -
library L 1 0 weak,before
section d data process 4 4
bytes d 00000007
""", b"fragment it\nsection 0 at 00010000 size 4\n00010000 00000007\n"),
    # imports of an absent library are 0, strong or weak
    ("imports of an absent library", b"""\
library L 1 0 weak
import v data strong
import w data weak
section d data process 4 12
bytes d 000000070000000900000005
fix d 0 import v
fix d 4 import w
fix d 8 section d
""", b"fragment it\nsection 0 at 00010000 size 12\n00010000 00000007 00000009 00010005\n"),
    ("a weak import that isn't exported", b"""\
library it 0 0 -
import w data weak
section d data process 4 4
bytes d 00000007
fix d 0 import w
export v data d 0
""", b"fragment it\nsection 0 at 00010000 size 4\n00010000 00000007\n"),
    # a weak library of the wrong version is absent
    ("a weak library that is too new", b"""\
versions 5 3 0
library it 2 0 weak,before
import v data strong
section d data process 4 4
fix d 0 import v
export v data d 0
""", b"fragment it\nsection 0 at 00010000 size 4\n00010000 00000000\n"),
    ("the oldest version that is taken", b"""\
versions 3 0 0
library it 5 3 -
import v data strong
section d data process 4 4
fix d 0 import v
export v data d 4
""", b"fragment it\nsection 0 at 00010000 size 4\n00010000 00010004\n"),
)

# Scripts, the error, and where it is. Without a section the row of library 0 begins at 88 (hex), after a container header of 40 bytes,
# one section header, zeros up to 50 and a loader header of 56. With a section without bytes it begins at 98. Library rows have 24 bytes.
REFUSED = (
    ("no library", b"library L 1 0 -\n", b"61 LibraryMissing in it library L", at_byte(b"the name of library 0, counted from 0", 0x88)),
    ("no library for a section", USER, b"61 LibraryMissing in it library L", at_byte(b"the name of library 0, counted from 0", 0x98)),
    # the missing library comes before the missing symbol
    ("no library and no symbol", b"library it 0 0 -\nimport w data strong\nlibrary L 1 0 -\n", b"61 LibraryMissing in it library L",
     at_byte(b"the name of library 1, counted from 0", 0xA0)),
    # names are escaped, and those of a fragment are compared byte by byte
    ("no library with an odd name", b"library a%b 0 0 -\nlibrary c 0 0 before\n", b"61 LibraryMissing in it library a%25b",
     at_byte(b"the name of library 0, counted from 0", 0x88)),
    ("a library in upper case", b"library IT 0 0 -\n", b"61 LibraryMissing in it library IT",
     at_byte(b"the name of library 0, counted from 0", 0x88)),
    ("no symbol", b"library it 0 0 -\nimport gone data strong\n", b"62 SymbolMissing in it library it symbol gone",
     at_byte(b"the name of import 0, counted from 0", 0xA0)),
    ("no symbol with an odd name", b"library it 0 0 -\nimport 100%~ tvector strong\n", b"62 SymbolMissing in it library it symbol 100%25~",
     at_byte(b"the name of import 0, counted from 0", 0xA0)),
    ("a symbol with an odd name in its line", b"library it 0 0 -\nimport a%b data strong\n", b"62 SymbolMissing in it library it symbol a%25b",
     at_byte(b"the name of import 0, counted from 0", 0xA0)),
    ("no symbol beside one that is there", b"""\
library it 0 0 -
import v data weak
import w data strong
section d data process 4 4
export v data d 0
""", b"62 SymbolMissing in it library it symbol w", at_byte(b"the name of import 1, counted from 0", 0xB4)),
    # versions of the fragment against itself
    ("an old library", b"versions 2 0 0\nlibrary it 5 3 -\n", b"63 ImplementationTooOld in it library it", at_version(5, 3, 2, 0, 0, 0x8C)),
    ("a new library", b"versions 5 3 0\nlibrary it 2 0 -\n", b"64 ImplementationTooNew in it library it", at_version(2, 0, 5, 3, 0, 0x8C)),
    ("a symbol that leads to itself", b"library it 0 0 -\nimport x data strong\nreexport x data x\n", b"65 ReexportLoop in it symbol x",
     at_byte(b"the name of import 0, counted from 0", 0xA0)),
    ("before itself", b"library it 0 0 before\n", b"66 InitLoop in it", at_byte(b"the option byte of library 0, counted from 0", 0x9C)),
    # the four bytes of the section end at 64, so the loader section begins at 70
    ("before itself with an import", b"""\
versions 1 0 0
library it 1 0 before
import u data strong
section m data process 4 4
bytes m 00000001
fix m 0 import u
export u data m 0
""", b"66 InitLoop in it", at_byte(b"the option byte of library 0, counted from 0", 0xBC)),
)

CASES = [Case(name, ["show"], stdin=script, stdout=printed) for name, script, printed in SHOWN]
CASES += [Case(name, ["show"], stdin=script, **refused(error, where)) for name, script, error, where in REFUSED]
