"""Scripts and certificates at several limits at once, and sections that find no room. Each word, each label and each length of a
container follows from simple arithmetic."""
import dataclasses

from data.containers import EMPTY
from data.help import HELP
from data.limits import (
    EXPORTS, FIXUPS, IMPORTS, IN_TURN, IN_TURN_FIXUPS, IN_TURN_LENGTH, IN_TURN_SECTIONS, LIBRARIES, SECTIONS, fixups, of_sections, sections,
)
from suite import Begins, Case


@dataclasses.dataclass(frozen=True)
class Sized:
    """A container of this length. Several shortest programs may be in it."""

    length: int

    def __eq__(self, other):
        return len(other) == self.length and other.startswith(b"Joy!peffpwpc")


def linked(length, programs):
    """Returns what `link` prints of a container and its programs."""
    return b"linked %d bytes\n" % length + b"".join(b"section %d length %d\n" % row for row in enumerate(programs))


def to_multiple(length, of):
    return -(-length // of) * of


def length_of(libraries, imports, programs, strings, slots, exports):
    """Returns the length of a container whose sections have no bytes, by the numbers of its parts and the length of the strings."""
    tables = 56 + 24 * libraries + 4 * imports + sum(12 + 2 * halfwords for halfwords in programs)
    return to_multiple(40 + 28 * (len(programs) + 1), 16) + to_multiple(tables + strings, 4) + 4 * slots + 14 * exports


def memory(total, words):
    """Returns what `show` prints of sections of this length, by the four words of each line of 16 bytes, section after section."""
    lines, address = [b"fragment it\n"], 0x10000
    for number, rows in enumerate(words):
        lines.append(b"section %d at %08X size %d\n" % (number, address, total))
        for row in range(total // 16):
            lines.append(b"%08X %b\n" % (address + 16 * row, rows[row % len(rows)]))
        address += total
    return b"".join(lines)


CASES = []

# --- fixups that aren't adjacent ---

# Eight sections with fixups at every other word. Those of the first four are by one base, those of the others by all sections in turn.
APART = 8 * IN_TURN_FIXUPS
OTHERS_IN_TURN = of_sections(IN_TURN, range(4, IN_TURN_SECTIONS))


def apart(base):
    return of_sections(fixups(IN_TURN_FIXUPS, 8, base), range(4)) + OTHERS_IN_TURN


# The import is the fragment's own export, at the first byte of its first section.
OWN_IMPORT = b"library it 0 0 -\nimport u data strong\n" + sections(IN_TURN_SECTIONS, APART) + apart(b"import u") + b"export u data s0 0\n"
FIRST = [b"00010000 00000000 00010000 00000000"]
TURNS = [b"%08X 00000000 %08X 00000000" % (0x10000 + APART * base, 0x10000 + APART * (base + 1)) for base in range(0, IN_TURN_SECTIONS, 2)]
CASES.append(Case("show 16,384 words apart", ["show"], stdin=OWN_IMPORT, stdout=memory(APART, 4 * [FIRST] + 4 * [TURNS])))

# All libraries, imports and exports. Each fixup by the last import takes two halfwords, and one to move there, except for the first.
AT_ALL_LIMITS = b"".join(
    [b"library l%d 0 0 -\n" % (number // 16) * (number % 16 == 0) + b"import i%d data strong\n" % number for number in range(IMPORTS)]
    + [sections(IN_TURN_SECTIONS, APART), apart(b"import i65535")]
    + [b"export e%d data s7 %d\n" % (number, number) for number in range(EXPORTS)]
)
# A name of a library or an import ends with a zero byte, and that of an export doesn't.
NAMES = sum(len(b"l%d" % n) + 1 for n in range(LIBRARIES)) + sum(len(b"i%d" % n) + 1 for n in range(IMPORTS))
NAMES += sum(len(b"e%d" % n) for n in range(EXPORTS))
LENGTHS = 4 * [3 * IN_TURN_FIXUPS - 1] + 4 * [IN_TURN_LENGTH]
LENGTH = length_of(LIBRARIES, IMPORTS, LENGTHS, NAMES, 2048, EXPORTS)
CASES.append(Case(
    "link at all limits", ["link", "a", "out"], {"a": AT_ALL_LIMITS}, stdout=linked(LENGTH, LENGTHS), after={"out": Sized(LENGTH)},
))

# --- memory ---

# Fixups of one section by all sixteen in turn, so that each of 16,385 rows has 289 labels. As with eight sections, section D is section 1
# at the start and is never set.
WIDE = sections(SECTIONS, APART) + of_sections(fixups(IN_TURN_FIXUPS, 8, *(b"section s%d" % section for section in range(SECTIONS))), [0])
WIDE_LENGTHS = [IN_TURN_FIXUPS + IN_TURN_FIXUPS - 1 - IN_TURN_FIXUPS // SECTIONS] + (SECTIONS - 1) * [0]
WIDE_SIZE = to_multiple(40 + 28 * (SECTIONS + 1), 16) + to_multiple(56 + 12 + 2 * WIDE_LENGTHS[0], 4) + 4
# Eight sections of which each has 16,385 rows of 81 labels.
ROWS_OF_ALL = sections(IN_TURN_SECTIONS, APART) + of_sections(IN_TURN, range(IN_TURN_SECTIONS))
# `link` keeps a byte for each label, and `distances` keeps certificates with a byte for most labels. With four bytes for each label
# `link` would take 18 MB more, and `distances` 42 MB more.
CASES += [
    Case("link wide labels", ["link", "a", "out"], {"a": WIDE}, stdout=linked(WIDE_SIZE, WIDE_LENGTHS), after={"out": Sized(WIDE_SIZE)}, memory=22_000_000),
    Case("distances of many labels", ["distances", "a"], {"a": ROWS_OF_ALL}, stdout=Begins(b"pefcert 2\nsection 0\nfixups 16384\nlength %d\n" % IN_TURN_LENGTH), memory=60_000_000),
]

# --- sixteen sections of the greatest number of fixups ---

TOTAL = 4 * FIXUPS
BY_IMPORT = fixups(FIXUPS, 4, b"import u")
# Eight sections have fixups by the import, which is the fragment's own export, and each of the others has fixups by itself.
MOST = b"library it 0 0 -\nimport u data strong\n" + sections(SECTIONS, TOTAL) + of_sections(BY_IMPORT, range(8))
MOST += of_sections(fixups(FIXUPS, 4, b"section @"), range(8, SECTIONS)) + b"export u data s0 8\n"
SHOWN = memory(TOTAL, [[b" ".join(4 * [b"%08X" % (0x10008 if k < 8 else 0x10000 + TOTAL * k)])] for k in range(SECTIONS)])
CASES.append(Case("show most fixups", ["show"], stdin=MOST, stdout=SHOWN))

# No instruction adds an import twice, so those sections have a halfword for each fixup. The others have two to set both registers, and
# 64 for 512 pairs of words each.
MOST_LENGTHS = 8 * [FIXUPS] + 8 * [2 + 64]
MOST_LENGTH = length_of(1, 1, MOST_LENGTHS, len(b"it\0u\0u"), 1, 1)
CASES.append(Case(
    "link most fixups", ["link", "a", "out"], {"a": MOST}, stdout=linked(MOST_LENGTH, MOST_LENGTHS), after={"out": Sized(MOST_LENGTH)},
))

# --- their certificates ---

# All fixups are by the one import. Each is an instruction of one halfword, which adds import 0, and the label of a row is the number of
# the fixups from there on.
OF_IMPORT = b"library l 0 0 -\nimport u data strong\n" + sections(SECTIONS, TOTAL) + of_sections(BY_IMPORT, range(SECTIONS))
ROWS = b"".join(b"at %d %d %d\n" % (row, row, FIXUPS - row) for row in range(FIXUPS + 1))
HEAD = b"section %d\nfixups 65536\nlength 65536\nprogram" + FIXUPS * b" 6000" + b"\nregisters *\n"


def certificates(section, row, label):
    """Returns the certificates with another label in a row of a section."""
    other = ROWS.replace(b"at %d %d %d\n" % (row, row, FIXUPS - row), b"at %d %d %d\n" % (row, row, label))
    return b"pefcert 2\n" + b"".join(HEAD % number + (other if number == section else ROWS) for number in range(SECTIONS)) + b"end\n"


# A label is changed by two, since neighbours that are equal would be one range: in the first row, in the middle, and in the last row.
CASES += [
    Case(
        f"check most fixups, and {label} in row {row}", ["check", "a", "b"], {"a": OF_IMPORT, "b": certificates(changed, row, label)},
        stdout=b"".join(b"section %d %b\n" % (k, b"no" if k == changed else b"yes 65536") for k in range(SECTIONS)), status=1,
    )
    for changed, row, label in ((0, 0, 65_538), (7, 30_000, 35_534), (15, 65_536, 2))
]

# --- sections of the greatest length ---

# There is no room for the last one after the others.
CASES.append(Case(
    "show without room", ["show"], stdin=sections(SECTIONS, 16_777_216), stdout=b"refused 67 NoRoom in it\n", stderr=Begins(HELP[67]), status=1,
))

# One line of 16,777,216 bytes is read, packed and written: an instruction copies each byte, and one makes each run of zeros. The packed
# bytes are at 96, and the loader section, which is that of an empty script, comes after them.
TIMES = 16_777_216 // 4
FULL = b"section p pattern process 4 16777216\nbytes p " + TIMES * b"07000000" + b"\n"
FULL_CONTAINER = bytes.fromhex("""
    4A6F7921 70656666 70777063 00000001 00000000 00000000 00000000 00000000 0002 0001 00000000
    FFFFFFFF 00000000 01000000 01000000 00C00000 00000060 02 01 04 00
    FFFFFFFF 00000000 00000000 00000000 0000003C 00C00060 04 04 04 00
""") + TIMES * b"\x21\x07\x03" + EMPTY[-60:]
CASES.append(Case(
    "link 16,777,216 bytes", ["link", "a", "out"], {"a": FULL}, stdout=b"linked 12583068 bytes\nsection 0 length 0\n",
    after={"out": FULL_CONTAINER},
))
