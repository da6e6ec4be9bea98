"""`pef distances`: the certificates that it prints, and the lengths that `pef check` says of them. Labels were worked out from their definition in
docs/CERTIFICATES.md."""
from data.limits import FIXUPS, IN_TURN, IN_TURN_FIXUPS, IN_TURN_LENGTH, IN_TURN_SECTIONS, SECTIONS, fixups, of_sections, sections
from data.refusals import refused
from data.scripts import EXAMPLE, VECTORS, VECTORS_CERTIFIED
from suite import Begins, Case

# Runs of each kind, words of one section eight apart, moves, and imports out of turn.
EACH_KIND = b"""\
library l 0 0 -
import i data strong
import j data weak
section a data process 4 64
section b data process 4 8192
section c data process 4 4
fix a 0 section a
fix a 4 section b
fix a 12 section a
fix a 16 section b
fix a 24 import i
fix a 28 import j
fix a 32 section c
fix a 36 section c
fix a 40 section c
fix b 2 import j
fix b 6 import i
fix b 1024 section c
fix b 1032 section c
fix b 1040 section c
fix b 8000 section a
"""

CASES = []

# Scripts and their certificates.
CASES += [
    Case(name, ["distances", "a"], {"a": script}, stdout=printed)
    for name, script, printed in (
        ("two vectors", VECTORS, VECTORS_CERTIFIED),
        ("an empty script", b"", b"pefcert 2\nend\n"),
        ("sections without fixups, of which one has no byte", b"section c code global 4 8\nsection d data process 4 0\n", b"""\
pefcert 2
section 0
fixups 0
length 0
program -
registers *
at 0 0 0
section 1
fixups 0
length 0
program -
registers *
at 0 0 0
end
"""),
        ("two imports in turn, of which both rows are equal", b"""\
library l 0 0 -
import i data strong
import j data strong
section a data process 4 8
fix a 0 import i
fix a 4 import j
""", b"""\
pefcert 2
section 0
fixups 2
length 1
program 4A01
registers *
at 0 1 1
at 2 2 0
end
"""),
        # Several programs have this length.
        ("two words by their section", EXAMPLE, Begins(b"pefcert 2\nsection 0\nfixups 2\nlength 3\nprogram ", has=(b"""
registers 0 *
at 0 0 1 2 1 2
at 1 1 1 1 1 1
at 2 2 0 0 0 0
end
""",))),
        ("runs of each kind", EACH_KIND, Begins(b"pefcert 2\nsection 0\nfixups 9\nlength 4\nprogram ", has=(b"""
registers 0 1 2 *
at 0 0 5 4 5 5 6 5 6 6 6 5 6 6 6 5 6 6
at 1 1 6 5 6 6 7 6 7 7 6 5 6 6 7 6 7 7
at 2 2 5 4 5 5 6 5 5 6 5 4 5 5 6 5 5 6
at 3 3 5 4 4 5 5 4 4 5 4 3 4 4 5 4 4 5
at 4 5 3 3 2 3 3 3 2 3 2 2 2 2 3 3 2 3
at 6 7 2 2 1 2 2 2 1 2 1 1 1 1 2 2 1 2
at 8 8 1 1 1 1 1 1 1 1 1 1 1 1 1 1 1 1
at 9 9 0 0 0 0 0 0 0 0 0 0 0 0 0 0 0 0
section 1
fixups 6
length 9
program """, b"""
registers 0 2 *
at 0 0 8 7 8 8 7 8 8 7 8
at 1 1 7 6 7 7 6 7 7 6 7
at 2 3 5 4 5 5 4 5 5 4 5
at 4 4 4 4 4 4 4 4 4 4 4
at 5 5 1 1 1 1 1 1 1 1 1
at 6 6 0 0 0 0 0 0 0 0 0
section 2
fixups 0
length 0
program -
registers *
at 0 0 0
end
"""))),
    )
]

# Fixups of section 1 as `offset:base`, with S for a section and I for an import; the length; the registers; and the labels row by row, with
# the classes of C outside and those of D inside.
LABELLED = (
    # one transition vector after another
    ("0:S0 4:S1 8:S0 12:S1", 1, "0 1 *", ("2 1 2 3 2 3 3 2 3", "3 2 3 2 3 3 3 3 3", "2 1 2 2 2 2 2 2 2", "1 1 1 1 1 1 1 1 1", "0 0 0 0 0 0 0 0 0")),
    # two words. The second is as far as a skip reaches after `VTable8 1`
    ("0:S1 1028:S1", 2, "1 *", ("2 3 2 3", "1 1 1 1", "0 0 0 0")),
    # the second word is as far as a move and a skip reach
    ("0:S1 5124:S1", 3, "1 *", ("3 4 3 4", "1 1 1 1", "0 0 0 0")),
    # words with a word between them
    ("0:S2 8:S2 16:S2", 2, "2 *", ("1 2 1 2", "1 2 1 2", "1 1 1 1", "0 0 0 0")),
    # words after a word that has no fixup
    ("4:S2 8:S2 12:S2", 2, "2 *", ("1 1 1 2", "1 1 1 2", "1 1 1 1", "0 0 0 0")),
    # words of one section and one of another, for which the longest run isn't the best
    ("0:S1 8:S1 12:S0", 3, "0 1 *", ("4 3 4 3 3 4 4 3 4", "2 2 2 1 2 2 2 2 2", "1 1 1 1 1 1 1 1 1", "0 0 0 0 0 0 0 0 0")),
    # a pair, and a word as far after it as a skip reaches
    ("0:S0 4:S1 1032:S1", 2, "0 1 *", ("3 2 3 4 3 4 4 3 4", "3 2 3 3 2 3 3 2 3", "1 1 1 1 1 1 1 1 1", "0 0 0 0 0 0 0 0 0")),
    # a pair, and a word that two instructions reach
    ("0:S0 4:S1 12:S1", 2, "0 1 *", ("3 2 3 3 2 3 3 2 3", "2 1 2 2 1 2 2 1 2", "1 1 1 1 1 1 1 1 1", "0 0 0 0 0 0 0 0 0")),
    # pairs in the other order than the registers have at the start
    ("0:S1 4:S0 8:S1 12:S0", 3, "0 1 *", ("2 3 3 1 2 2 2 3 3", "3 2 3 2 3 3 3 3 3", "2 2 2 1 2 2 2 2 2", "1 1 1 1 1 1 1 1 1", "0 0 0 0 0 0 0 0 0")),
    # two imports, and both again
    ("0:I0 4:I1 8:I0 12:I1", 3, "*", ("3", "3", "2", "1", "0")),
)

NO_FIXUPS = b"fixups 0\nlength 0\nprogram -\nregisters *\nat 0 0 0\n"


def labelled(listed, length, registers, rows):
    """The case of a list: equal rows have one line. Several shortest programs may be printed."""
    script = "library l 0 0 -\nimport i0 data strong\nimport i1 data strong\n" + "".join(f"section s{number} data process 4 5128\n" for number in range(3))
    pairs = [it.split(":") for it in listed.split()]
    script += "".join(f"fix s1 {offset} {'import' if base[0] == 'I' else 'section'} {base.lower()}\n" for offset, base in pairs)
    text, start = f"\nregisters {registers}\n", 0
    for row, labels in enumerate(rows):
        if row + 1 == len(rows) or rows[row + 1] != labels:
            text += f"at {start} {row} {labels}\n"
            start = row + 1
    head = b"pefcert 2\nsection 0\n" + NO_FIXUPS + f"section 1\nfixups {len(pairs)}\nlength {length}\nprogram ".encode()
    text = text.encode() + b"section 2\n" + NO_FIXUPS + b"end\n"
    return Case(f"the labels of {listed}", ["distances", "a"], {"a": script.encode()}, stdout=Begins(head, has=(text,)))


CASES += [labelled(*row) for row in LABELLED]

# Errors of scripts. The second word overlaps the first.
CASES += [
    Case(error.decode(), ["distances", "a"], {"a": script}, **refused(error, where))
    for script, error, where in (
        (b"section d\n", b"41 BadLine line 1", b"A line with this first word has 6 words. This one has 2.\n    section d\n             ^\n"),
        (b"section d data process 4 8\nfix d 0 section d\nfix d 2 section d\n", b"46 Overlap line 3",
         b"It overlaps a word that line 2 fills.\n    fix d 2 section d\n          ^\n"),
    )
]


def checked(name, script, *lengths):
    """`check` accepts what `distances` prints of a script, with these lengths."""
    printed = b"".join(b"section %d yes %d\n" % row for row in enumerate(lengths))
    return Case(name, ["check", "a", "b"], {"a": script}, certified={"b": "a"}, stdout=printed)


def two_sections(total, *lines):
    """Returns a script with fixups of section a, and with a section b of four bytes."""
    return b"section a data process 4 %d\nsection b data process 4 4\n" % total + b"".join(b"fix a %b\n" % line for line in lines)


THREE = b"section a data process 4 12\nsection b data process 4 4\nsection c data process 4 4\n"
LIBRARY = b"library k 0 0 -\nimport i data strong\n"
CASES += [
    checked("checked: nothing", b""),
    checked("checked: runs of each kind", EACH_KIND, 4, 9, 0),
    checked(
        "checked: an import after two sections",
        b"library l 0 0 -\nimport i data strong\n" + two_sections(12, b"0 section a", b"4 section b", b"8 import i"), 2, 0,
    ),
    checked(
        "checked: four words of two sections in turn",
        two_sections(20, b"0 section a", b"4 section b", b"12 section a", b"16 section b") + b"fix b 0 section a\n", 1, 1,
    ),
    checked("checked: a word after a word", two_sections(8, b"4 section b"), 1, 0),
    # The longest move that one instruction makes with an addition is 5116.
    checked("checked: the longest move", two_sections(8192, b"5116 section b"), 2, 0),
    checked("checked: a shorter move", two_sections(8192, b"5000 section b"), 2, 0),
    checked("checked: a longer move", two_sections(8192, b"5117 section b"), 3, 0),
    checked("checked: one word and one of the other section eight apart", two_sections(12, b"0 section b", b"8 section a"), 2, 0),
    checked("checked: two words eight apart and one of the other section", two_sections(16, b"0 section b", b"8 section b", b"12 section a"), 3, 0),
    checked(
        "checked: three words of a section that isn't in a register", THREE + b"fix a 0 section c\nfix a 4 section c\nfix a 8 section c\n", 2, 0, 0,
    ),
    checked("checked: two words of a section that isn't in a register", THREE + b"fix a 0 section c\nfix a 4 section c\n", 2, 0, 0),
    # A register is set, and each word is one instruction.
    checked("checked: two words by the first section", b"section d data process 4 16\nfix d 4 section d\nfix d 12 section d\n", 3),
    checked(
        "checked: the first import of each of two libraries",
        LIBRARY + b"library l 0 0 -\nimport j data strong\nsection d data process 4 8\nfix d 0 import i\nfix d 4 import j\n", 1,
    ),
    checked(
        "checked: two imports that aren't in order",
        LIBRARY + b"import j data strong\nsection d data process 4 8\nfix d 0 import j\nfix d 4 import i\n", 2,
    ),
    checked(
        "checked: an import in two sections",
        LIBRARY + b"section d data process 4 4\nsection e data process 4 4\nfix d 0 import i\nfix e 0 import i\n", 1, 1,
    ),
    checked("checked: two vectors", b"section c code global 4 8\nsection d data process 4 16\ntvector d 0 c d\ntvector d 8 c d\n", 0, 1),
]

# The longest runs of one section, and those after a skip, which adds 63 at most.
CASES += [
    checked(f"checked: {count} words from {start}", two_sections(4096, *(b"%d section b" % (start + 4 * i) for i in range(count))), length, 0)
    for start, count, length in ((0, 512, 1), (0, 513, 2), (4, 63, 1), (4, 64, 2))
]

# The last import that one halfword adds with the next one, and one that takes two halfwords.
IMPORTS = b"library l 0 0 -\n" + b"".join(b"import i%d data strong\n" % i for i in range(601)) + b"section a data process 4 16\n"
CASES += [
    checked("checked: imports 511 and 512", IMPORTS + b"fix a 0 import i511\nfix a 4 import i512\n", 2),
    checked("checked: imports 511 and 512 apart", IMPORTS + b"fix a 0 import i511\nfix a 8 import i512\n", 3),
    checked("checked: import 600", IMPORTS + b"fix a 0 import i600\n", 2),
]

# A certificate of 16,385 rows of 81 labels.
MANY = sections(IN_TURN_SECTIONS, 8 * IN_TURN_FIXUPS) + of_sections(IN_TURN, [IN_TURN_SECTIONS - 1])
CASES.append(checked("checked: 16,384 words of eight sections in turn", MANY, 0, 0, 0, 0, 0, 0, 0, IN_TURN_LENGTH))


def most_in_turn(apart):
    """Returns a script with as many sections and fixups as there can be, by each section and the one so far on in turn."""
    lines = fixups(FIXUPS, 4, b"section @", b"section $")
    return sections(SECTIONS, 4 * FIXUPS) + b"".join(
        lines.replace(b"$", b"s%d" % ((section + apart) % SECTIONS)).replace(b"@", b"s%d" % section) for section in range(SECTIONS)
    )


# A pair of words is one unit, and one halfword makes 512 units. So there are 64 halfwords, and one more for each register that doesn't hold
# its section at the start.
CASES += [
    checked("checked: most words by their own section", most_in_turn(0), 65, 65, *14 * [66]),
    checked("checked: most words by two sections in turn", most_in_turn(1), 64, *15 * [66]),
]
