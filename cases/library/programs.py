"""The relocation programs that are linked: how many halfwords they have, which is the least that makes the fixups, and their bytes if only one
program is shortest. docs/CERTIFICATES.md says why nothing is shorter; `examples/checker` looks for shorter programs by itself."""

# The fixups of section 1 as `offset:base`, with S for a section and I for an import; the least number of halfwords; and the program, if there
# is one alone.
LISTS = [
    ("", 0, ""),
    ("0:S0 4:S1 8:I0", 2, ""),
    ("0:S0 4:S1 12:S0 16:S1", 1, "4401"),
    ("0:S0 4:S1 8:S0 12:S1", 1, "4601"),
    ("4:S1", 1, "0041"),
    ("5116:S1", 2, "8FFF3FC1"),
    ("5000:S1", 2, ""),
    ("5117:S1", 3, ""),
    ("0:S1 8:S0", 2, ""),
    ("0:S1 8:S1 12:S0", 3, ""),
    ("0:I511 4:I512", 2, "61FF4A00"),
    ("0:I600", 2, "A4000258"),
    ("0:I65535", 2, "A400FFFF"),
    ("0:S2 4:S2 8:S2", 2, ""),
    ("0:S2 4:S2", 2, ""),
    # A skip passes up to 255 words, and a move of one halfword up to 4,096 bytes.
    ("1020:S1", 1, "3FC1"),
    ("1024:S1", 2, ""),
    ("1020:S2", 2, ""),
    ("5:S1", 2, ""),
    ("4096:S0", 2, ""),
    ("4097:S0", 3, ""),
    ("4097:S1", 2, ""),
    ("5116:S0", 3, ""),
    ("0:S1 5:S1", 3, ""),
    ("0:S1 1028:S1", 2, ""),
    ("0:S1 1032:S1", 3, ""),
    ("0:S0 4:S1 1032:S1", 2, ""),
    ("0:S1 4100:S0", 3, ""),
    ("0:S1 4104:S0", 3, ""),
    ("0:S1 4105:S0", 4, ""),
    ("0:S1 5120:S1", 3, ""),
    ("0:S1 5124:S1", 3, ""),
    ("0:S1 5125:S1", 4, ""),
    # Runs of pairs, and where they end.
    ("0:S0 4:S1 12:S1", 2, ""),
    ("0:S0 4:S1 12:S0 16:S1 20:S0 24:S1", 2, "44004601"),
    ("0:S1 4:S1 12:S1 16:S1", 2, ""),
    ("0:S1 4:S0 8:S1 12:S0", 3, ""),
    ("0:S1 4:S1 8:S2 12:S2", 3, ""),
    ("0:S0 1024:S2", 3, ""),
    ("4:S2 8:S2 12:S2", 2, ""),
    ("1000:S2 1004:S2", 2, ""),
    ("4097:S2 4101:S2 4105:S2", 3, ""),
    ("0:S2 8:S2 16:S2", 2, ""),
    ("0:S2 4:S3 8:S2 12:S3 16:S2 20:S3", 3, ""),
    ("0:S2 4:S3 12:S2 16:S3 24:S2 28:S3", 3, ""),
    ("0:I0 4:I1 8:I0 12:I1", 3, ""),
    ("0:I0 8:I1", 3, ""),
    ("0:I1 4:S0 8:I2", 3, ""),
    ("0:I511 4:I512 8:I600", 4, ""),
    # As many sections as there may be.
    ("0:S15", 1, "660F"),
]

# The number of fixups in a row, the offset of the first, how far it is to the next, the bases in turn, the least number of halfwords, and
# the program if there is one alone.
IN_A_ROW = [
    (512, 0, 4, "S1", 1, "43FF"),
    (513, 0, 4, "S1", 2, ""),
    # a skip to the first adds 63 words
    (64, 4, 4, "S1", 2, ""),
    (16_384, 0, 4, "S1", 17, ""),
    (65_536, 0, 4, "S1", 65, ""),
    (1_030, 0, 4, "S1", 3, ""),
    (1_030, 0, 4, "S0 S1", 2, ""),
    (2_048, 0, 4, "S0 S1", 2, "47FF47FF"),
    (1_024, 0, 8, "S1", 2, "49FF49FF"),
]

KINDS = {"S": "section", "I": "import"}

# The longest program that the limits allow has three halfwords for each of 65,536 fixups, and one more for each of 4,016 of them.
#
# A fixup takes two halfwords if its import is above 511, and no base takes more. A move to its offset takes no halfword if the fixup adjoins
# the one before, one to pass up to 4,096 bytes, and two to pass more. A section has room for 16,515,072 bytes between its fixups: one before
# each, and 4,096 more before 4,016 of them. So no fixups take more. These don't take fewer: all are by one import, so no instruction makes
# two, and no move of one halfword passes more than 4,096 bytes.
TOTAL, FIXUPS, FAR, LONGEST = 16_777_216, 65_536, 4_016, 200_624


def script(fixups, total):
    """A script with these fixups of section 1: an offset, a kind and a number each."""
    most = {kind: max([number for _, other, number in fixups if other == kind], default=-1) for kind in KINDS}
    lines = ["library Tools 1 0 -"] + [f"import i{number} data strong" for number in range(most["I"] + 1)]
    lines += [f"section s{number} data process 4 {total if number == 1 else 4}" for number in range(max(most["S"], 2) + 1)]
    lines += [f"fix s1 {offset} {KINDS[kind]} {'si'[kind == 'I']}{number}" for offset, kind, number in fixups]
    return "\n".join(lines)


def linked(pef, fixups, total=None):
    """The programs of these fixups, and what they add."""
    container = pef.Container(pef.link(script(fixups, total or max([offset + 4 for offset, _, _ in fixups], default=4))))
    programs = [(it.section, it.instructions) for it in container.relocations]
    return programs, [(it.offset, it.kind, it.number) for header in range(len(programs)) for it in container.fixups(header)]


def compared(pef, name, fixups, halfwords, program, total=None):
    programs, added = linked(pef, fixups, total)
    yield f"how many halfwords for {name}", [(section, len(them)) for section, them in programs], [(1, 2 * halfwords)] if fixups else []
    yield f"the fixups of {name}", added == [(offset, KINDS[kind], number) for offset, kind, number in fixups], True
    if program:
        yield f"the program for {name}", [them.hex().upper() for _, them in programs], [program]


def checks(pef):
    for listed, halfwords, program in LISTS:
        pairs = [it.split(":") for it in listed.split()]
        fixups = [(int(offset), base[0], int(base[1:])) for offset, base in pairs]
        yield from compared(pef, listed or "no fixups", fixups, halfwords, program)
    for count, first, step, bases, halfwords, program in IN_A_ROW:
        turns = bases.split()
        fixups = [(first + step * number, base[0], int(base[1:])) for number in range(count) for base in [turns[number % len(turns)]]]
        yield from compared(pef, f"{count:,} fixups by {bases} from {first}", fixups, halfwords, program)
    fixups, end = [], 0
    for number in range(FIXUPS):
        end += 4_097 if number < FAR else 1
        fixups.append((end, "I", 600))
        end += 4
    assert end == TOTAL
    yield from compared(pef, "the longest program", fixups, LONGEST, "", TOTAL)
