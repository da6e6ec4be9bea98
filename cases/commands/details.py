"""What the standard error says of an error in a script: what is wrong with the line, and the word at fault."""
from data.refusals import refused
from data.scripts import EXAMPLE, VECTORS_CERTIFIED
from suite import Case

# A script, the error, and what follows the help.
SHOWN = (
    # bytes and spaces
    ("a carriage return", b"versions 1 2 3\r\n", b"41 BadLine line 1", b"""\
The line has a carriage return. Save the script with line feeds alone.
    versions 1 2 3?
                 ^^
"""),
    ("a tab", b"# text\n\nsection\ta data process 4 4\n", b"41 BadLine line 3", b"""\
The line has a tab. Write one space in its place.
    section?a data process 4 4
    ^^^^^^^^^
"""),
    ("a byte above 7E", b"section \xE9 data process 4 4\n", b"41 BadLine line 1", b"""\
The line has a byte that isn't printing ASCII.
    section ? data process 4 4
            ^
"""),
    ("a space at the start", b" versions 1 2 3\n", b"41 BadLine line 1", b"""\
The line begins with a space.
     versions 1 2 3
    ^
"""),
    ("a space at the end", b"versions 1 2 3 ", b"41 BadLine line 1", b"""\
The line ends with a space.
    versions 1 2 3\x20
                 ^
"""),
    ("two spaces", b"versions 1  2 3\n", b"41 BadLine line 1", b"""\
The line has two spaces in a row.
    versions 1  2 3
               ^
"""),
    # words
    ("a first word in upper case", b"versions 1 2 3\nSection a data process 4 4\n", b"41 BadLine line 2", b"""\
No line of a script begins with its first word.
    Section a data process 4 4
    ^^^^^^^
"""),
    ("a line of one unknown word", b"sections\n", b"41 BadLine line 1", b"""\
No line of a script begins with its first word.
    sections
    ^^^^^^^^
"""),
    ("a word is missing", b"versions 1 2\n", b"41 BadLine line 1", b"""\
A line with this first word has 4 words. This one has 3.
    versions 1 2
                ^
"""),
    ("four words are missing", b"section d\n", b"41 BadLine line 1", b"""\
A line with this first word has 6 words. This one has 2.
    section d
             ^
"""),
    ("a first word alone", b"main\n", b"41 BadLine line 1", b"""\
A line with this first word has 3 words. This one has 1.
    main
        ^
"""),
    ("half a byte", b"section a data process 4 4\nbytes a 123\n", b"41 BadLine line 2", b"""\
A name has more than 255 bytes, or the hex digits aren't pairs.
    bytes a 123
            ^^^
"""),
    # the order of lines
    ("a library after sections", b"versions 1 2 3\n# data\nsection a data process 4 4\nsection b data process 4 4\nlibrary L 1 1 -\n",
     b"45 OutOfOrder line 5", b"""\
It has to come before line 3, which is of a later group.
    library L 1 1 -
    ^^^^^^^
"""),
    ("a section after contents", b"section d data process 4 8\nfix d 4 section d\nsection e data process 4 8\n", b"45 OutOfOrder line 3", b"""\
It has to come before line 2, which is of a later group.
    section e data process 4 8
    ^^^^^^^
"""),
    ("versions twice", b"\nversions 1 2 3\n\nversions 1 2 3\n", b"45 OutOfOrder line 4", b"""\
Line 2 is of the same kind, and a script has one such line.
    versions 1 2 3
    ^^^^^^^^
"""),
    ("an import of no library", b"import v data strong\n", b"45 OutOfOrder line 1", b"""\
No library comes before this import.
    import v data strong
    ^^^^^^
"""),
    # kinds
    ("a kind", b"section d odd process 4 8\n", b"49 BadKind line 1", b"""\
The word has to be one of these: code data pattern const exec
    section d odd process 4 8
              ^^^
"""),
    ("a share", b"section a data shared 4 4\n", b"49 BadKind line 1", b"""\
The word has to be one of these: process global protected
    section a data shared 4 4
                   ^^^^^^
"""),
    ("a base", b"section a data process 4 4\nfix a 0 symbol b\n", b"49 BadKind line 2", b"""\
The word has to be one of these: section import
    fix a 0 symbol b
            ^^^^^^
"""),
    # numbers
    ("a leading zero", b"versions 01 2 3\n", b"42 BadNumber line 1", b"""\
    versions 01 2 3
             ^^
"""),
    ("one byte too many in a section", b"section d data process 4 16777217\n", b"42 BadNumber line 1", b"""\
    section d data process 4 16777217
                             ^^^^^^^^
"""),
    # The line is cut, 32 bytes before the word.
    ("a long line", b"section " + b"n" * 60 + b" data process 4 16777217\n", b"42 BadNumber line 1", b"""\
    nnnnnnnnnnnnnnnn data process 4 16777217
                                    ^^^^^^^^
"""),
    # names
    ("a section that nothing declares", b"fix d 0 section d\n", b"43 UnknownName line 1", b"""\
    fix d 0 section d
        ^
"""),
    ("an import that nothing declares", b"section d data process 4 8\nfix d 0 import x\n", b"43 UnknownName line 2", b"""\
    fix d 0 import x
                   ^
"""),
    ("a name with another letter", b"section data data process 4 4\nfix date 0 section data\n", b"43 UnknownName line 2", b"""\
Line 1 declares a name that is nearly this one.
    fix date 0 section data
        ^^^^
"""),
    ("a name that is unlike all others", b"section a data process 4 4\nfix zero 0 section a\n", b"43 UnknownName line 2", b"""\
    fix zero 0 section a
        ^^^^
"""),
    ("a name of a section twice", b"section a data process 4 4\n\nsection a code process 4 4\n", b"44 RepeatedName line 3", b"""\
Line 1 has the same name.
    section a code process 4 4
            ^
"""),
    ("a section twice", b"section d data process 4 8\nsection d data process 4 8\n", b"44 RepeatedName line 2", b"""\
Line 1 has the same name.
    section d data process 4 8
            ^
"""),
    # contents
    ("a fixup over two others", b"section a data process 4 8\nfix a 4 section a\nfix a 0 section a\nfix a 2 section a\n",
     b"46 Overlap line 4", b"""\
It overlaps a word that line 2 fills.
    fix a 2 section a
          ^
"""),
    ("a fixup below another", b"section d data process 4 16\nfix d 8 section d\nfix d 5 section d\n", b"46 Overlap line 3", b"""\
It overlaps a word that line 2 fills.
    fix d 5 section d
          ^
"""),
    ("a fixup above another", b"section d data process 4 8\nfix d 0 section d\nfix d 2 section d\n", b"46 Overlap line 3", b"""\
It overlaps a word that line 2 fills.
    fix d 2 section d
          ^
"""),
    ("a transition vector over a fixup", b"section d data process 4 16\nfix d 8 section d\ntvector d 4 d d\n", b"46 Overlap line 3", b"""\
It overlaps a word that line 2 fills.
    tvector d 4 d d
              ^
"""),
    ("a fixup past the end", b"section a data process 4 8\nfix a 5 section a\n", b"47 OutsideSection line 2", b"""\
    fix a 5 section a
          ^
"""),
    # It overlaps no word: the one at 0 ends at 4.
    ("a second fixup past the end", b"section d data process 4 8\nfix d 0 section d\nfix d 5 section d\n", b"47 OutsideSection line 3", b"""\
    fix d 5 section d
          ^
"""),
    # sixteen are the most
    ("seventeen sections", b"".join(b"section s%d data process 2 4\n" % k for k in range(17)), b"48 TooMany line 17", b"""\
    section s16 data process 2 4
            ^^^
"""),
    ("seventeen sections of one byte", b"".join(b"section %c data process 4 1\n" % it for it in b"abcdefghijklmnopq"), b"48 TooMany line 17", b"""\
    section q data process 4 1
            ^
"""),
)

CASES = [Case(name, ["show"], stdin=script, **refused(error, where)) for name, script, error, where in SHOWN]

# Each command that reads a script from a file says the same.
TAB = refused(b"41 BadLine line 1", b"The line has a tab. Write one space in its place.\n    ?versions 1 2 3\n    ^^^^^^^^^\n")
CASES += [
    Case(f"a tab in the file of {words[0]}", words, {"a": b"\tversions 1 2 3\n", "b": b""}, **TAB)
    for words in (["link", "a", "b"], ["check", "a", "b"], ["distances", "a"])
]

# Of certificates the help alone is known. One that proves nothing isn't explained.
CASES += [
    Case("another version of certificates", ["check", "a", "b"], {"a": EXAMPLE, "b": b"pefcert 3\n"}, **refused(b"51 BadCertificate line 1")),
    Case("certificates of two sections for one", ["check", "a", "b"], {"a": EXAMPLE, "b": VECTORS_CERTIFIED}, **refused(b"52 SectionsDiffer")),
    Case(
        "certificates of other fixups", ["check", "a", "b"],
        {"a": b"section a data process 4 4\nsection b data process 4 4\n", "b": VECTORS_CERTIFIED},
        stdout=b"section 0 yes 0\nsection 1 no\n", status=1,
    ),
]
