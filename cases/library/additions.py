"""The additions of relocation programs, whether or not their words, sections and imports exist. And a long program that is applied."""
from data.bare import Section, container

# A program, and what docs/FORMATS.md gives it: offsets, and sections or imports with their numbers.
PROGRAMS = [
    ("", []),
    ("0100", []),
    ("4200", [(0, "section", 1)]),
    ("4A01", [(0, "import", 0), (4, "import", 1)]),
    ("6604", [(0, "section", 4)]),
    ("8002 4000", [(3, "section", 0)]),
    ("B400 0201", [(0, "section", 513)]),
    ("B440 0202 B480 0203 4600", [(0, "section", 514), (4, "section", 515)]),
    ("4000 9001", [(0, "section", 0), (4, "section", 0), (8, "section", 0)]),
    ("4000 B000 0000", [(0, "section", 0)]),
    ("4200 9000 4000 9000 4A00", [(0, "section", 1), (4, "section", 1), (8, "section", 0), (12, "section", 0), (16, "import", 0)]),
    ("0041", [(4, "section", 1)]),
    ("4001", [(0, "section", 0), (4, "section", 0)]),
    ("4401", [(0, "section", 0), (4, "section", 1), (12, "section", 0), (16, "section", 1)]),
    ("4601", [(0, "section", 0), (4, "section", 1), (8, "section", 0), (12, "section", 1)]),
    ("4801", [(0, "section", 1), (8, "section", 1)]),
    ("6005 4A00", [(0, "import", 5), (4, "import", 6)]),
    ("6203 6402 4600", [(0, "section", 3), (4, "section", 2)]),
    ("8002 6604", [(3, "section", 4)]),
    ("A000 0010 A400 0258 4A00", [(16, "import", 600), (20, "import", 601)]),
    ("4200 8003 9100", [(0, "section", 1), (8, "section", 1)]),
    ("A400 0007 B040 0002", [(0, "import", 7), (4, "import", 7), (8, "import", 7)]),
    ("B440 0202 B480 0203 B400 0201", [(0, "section", 513)]),
    # 512 words, and ten times more
    ("43FF 9009", [(4 * word, "section", 1) for word in range(512 * 11)]),
    # the word is past 32 bits: an instruction that moves on by 4,096 bytes is executed 1,048,577 times
    ("8FFF B010 0000 4000", [(4096 * 1_048_577, "section", 0)]),
]


def of_program(pef, halfwords):
    made = pef.Container(container([Section(total=4)], [bytes.fromhex(halfwords)])).fixups(0)
    return [(it.offset, it.kind, it.number) for it in made]


def a_million(pef):
    """A million instructions, each of which adds to two pairs of words, over sixteen million bytes of ones."""
    ones = Section(b"\1" * 16_000_004, 16_000_004, 16_000_004)
    contents = container([ones, Section(total=4)], [bytes.fromhex("4601") * 1_000_000])
    # the second section is at the next multiple of 16
    second = 0x10000 + 16_000_016
    pair = (0x01010101 + 0x10000).to_bytes(4, "big") + (0x01010101 + second).to_bytes(4, "big")
    with pef.Context() as context:
        context.add("it", contents)
        section = context.prepare("it").root.sections[0]
        yield "a million instructions", section.contents == pair * 2_000_000 + b"\1" * 4, True


def checks(pef):
    for halfwords, additions in PROGRAMS:
        yield f"the additions of {halfwords}", of_program(pef, halfwords), additions
    yield from a_million(pef)
