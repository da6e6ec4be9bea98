"""Where sections are placed: limits, gaps, alignments and pages, reserved ranges, addresses that are given, and much memory."""
from data.bare import Section, container

NO_ROOM = None


def fragment(size, align, count=1):
    return container([Section(total=size, align=align)] * count)


class Placed:
    """A context whose fragments have one section each."""

    def __init__(self, pef, **options):
        self.context, self.pef, self.open = pef.Context(**options), pef, {}

    def place(self, size, align):
        """The address of a new section, or None if there is no room."""
        name = f"{len(self.open)}"
        self.context.add(name, fragment(size, align))
        try:
            connection = self.context.prepare(name)
        except self.pef.PefError as error:
            assert error.number == 67, error
            self.open[name] = None
            return NO_ROOM
        (section,) = connection.root.sections
        self.open[name] = (section.address, connection)
        return section.address

    def remove(self, address):
        for name, placed in self.open.items():
            if placed is not None and placed[0] == address:
                placed[1].close()
                self.open[name] = None


# Options, and sections in turn: the size, the alignment, and the address or None. A size of -1 removes the section at the address.
ROWS = [
    # a limit
    ({"limit": 0}, [(0, 0, NO_ROOM)]),
    ({"limit": 0x1000F}, [(0, 0, NO_ROOM), (15, 0, NO_ROOM)]),
    ({"limit": 0x10010}, [(0, 17, NO_ROOM), (16, 16, 0x10000), (0, 0, NO_ROOM)]),
    ({"limit": 0x10020}, [(17, 4, 0x10000), (0, 4, NO_ROOM)]),
    ({"limit": 0xFFFFFFFF}, [(4, 31, 0x80000000), (4, 31, NO_ROOM), (0xFFFFFFFF, 0, NO_ROOM)]),
    # gaps
    (
        {"limit": 0x1000000},
        [
            (8, 4, 0x10000),
            (0, 17, 0x20000),
            (20, 4, 0x10010),
            (-1, 0, 0x10000),
            (16, 0, 0x10000),
            (1, 5, 0x10040),
            (1, 0, 0x10030),
            (1, 0, 0x10050),
            (-1, 0, 0x10030),
            # a gap that is too small is passed over, and so is one that only the alignment makes too small
            (17, 0, 0x10060),
            (16, 5, 0x10080),
            (16, 4, 0x10030),
            # a section that ends at the limit, or fills a gap, just has room
            (0xFE0001, 0, NO_ROOM),
            (0xFDFFF0, 0, 0x20010),
            (0xFF00, 0, 0x10090),
            (0, 31, NO_ROOM),
        ],
    ),
    # each section has pages of its own, and a greater alignment decides instead
    ({"granule": 4096, "limit": 0x18000}, [(1, 0, 0x10000), (0, 4, 0x11000), (4097, 12, 0x12000), (4096, 14, 0x14000), (0x3000, 0, 0x15000), (0, 0, NO_ROOM)]),
    ({"granule": 4096, "limit": 0x10FFF}, [(1, 0, NO_ROOM)]),
    ({"granule": 0x20000, "limit": 0x40000}, [(1, 0, 0x20000), (1, 0, NO_ROOM)]),
    ({"granule": 16, "limit": 0x10020}, [(1, 0, 0x10000), (1, 0, 0x10010), (1, 0, NO_ROOM)]),
]


def placed(pef, options, steps):
    """The address of each section that is placed."""
    them, found = Placed(pef, **options), []
    for size, align, address in steps:
        if size < 0:
            them.remove(address)
            found.append(address)
        else:
            found.append(them.place(size, align))
    return found


# Which granules are taken.
GRANULES = [(16, True), (32, True), (4096, True), (0x80000000, True), *((bad, False) for bad in (1, 8, 15, 17, 24, 4095, 0xFFFFFFFF))]


def is_granule(pef, granule):
    try:
        pef.Context(granule=granule).free()
    except pef.PefError as error:
        return error.number
    return True


# Beside a section of one byte at 00010000, which takes a page: the address and the size of a range, and if it can be reserved. The ends
# of a range are multiples of 16. Then the first two pages are taken.
BESIDE_A_PAGE = [(0x10010, 16, False), (0x10FFF, 1, False), (0x11000, 16, True), (0x11000, 1, False), (0xFFF0, 16, True)]


def is_reserved(pef, context, address, size):
    try:
        context.reserve(address, size)
    except pef.PefError as error:
        return error.number != 67
    return True


# So many ranges of 16 bytes with as much between them, and sections that are placed after them: the size, and the address. One fits
# between the first two ranges, and one only after the last.
RANGES = 65_537
BESIDE_RANGES = [(16, 0x10010), (17, 0x10000 + 32 * RANGES - 16)]


def beside_ranges(pef):
    """The addresses of these sections."""
    them = Placed(pef)
    for number in range(RANGES):
        them.context.reserve(0x10000 + 32 * number, 1)
    return [them.place(size, 0) for size, _ in BESIDE_RANGES]


# How many sections, the size and the alignment of each, the address of the first, and the distance between two: 64 MiB and more in one
# piece and in many, and as much as the sections of a script may have.
MUCH = [
    (1, 0x4000001, 31, 0x80000000, 0),
    (8, 0x1000000, 12, 0x10000, 0x1000000),
    (1025, 0x10000, 4, 0x10000, 0x10000),
]


def much(pef, count, size, align):
    """How many sections are new, their addresses, and whether the first and the last hold zeros."""
    with pef.Context(0xFFFFFFFF) as context:
        context.add("it", fragment(size, align, count))
        new = len(context.new_sections("it"))
        sections = context.prepare("it").root.sections
        zeros = all(it.contents == bytes(size) for it in (sections[0], sections[-1]))
        return new, [it.address for it in sections], zeros


# Options, the sections of a fragment, addresses for them, and 0 or the error. There is a section of 16 bytes at 00010000, and a reserved
# range from 00010100 to 00010110. The limit is 00018000 if the options don't say otherwise.
GIVEN = [
    ({}, [], [], 0),
    ({}, [(1, 0)], [0x10010], 0),
    ({}, [(1, 0)], [0x17FF0], 0),
    # meets the section, isn't a multiple of the granule, lies below the first address, or passes the limit
    ({}, [(1, 0)], [0x10000], 67),
    ({}, [(1, 0)], [0x10018], 67),
    ({}, [(1, 0)], [0xFFF0], 67),
    ({}, [(1, 0)], [0], 67),
    ({}, [(1, 0)], [0x18000], 67),
    ({}, [(17, 0)], [0x17FF0], 67),
    ({}, [(1, 0)], [0xFFFFFFF0], 67),
    # its alignment
    ({}, [(1, 12)], [0x11000], 0),
    ({}, [(1, 12)], [0x10800], 67),
    # the reserved range: it ends before it, begins after it, meets it
    ({}, [(0x20, 0)], [0x100E0], 0),
    ({}, [(0x21, 0)], [0x100E0], 67),
    ({}, [(1, 0)], [0x10110], 0),
    ({}, [(1, 0)], [0x10100], 67),
    # later sections may be below, and none may meet one before it
    ({}, [(16, 0), (16, 0)], [0x10040, 0x10030], 0),
    ({}, [(16, 0), (17, 0)], [0x10040, 0x10030], 67),
    ({}, [(0, 0), (0, 0)], [0x10040, 0x10040], 67),
    # too few, too many
    ({}, [(1, 0)], [], 210),
    ({}, [(1, 0)], [0x10010, 0x10020], 210),
    ({}, [(1, 0), (1, 0)], [0], 210),
    ({}, [], [0x10010], 210),
    # the bounds come first
    ({"bytes": 31}, [(17, 0)], [], 75),
    ({"bytes": 32}, [(17, 0)], [0x10010], 0),
    # pages
    ({"granule": 4096}, [(1, 0)], [0x11000], 0),
    ({"granule": 4096}, [(1, 0)], [0x10800], 67),
    ({"granule": 4096, "limit": 0x11FFF}, [(1, 0)], [0x11000], 67),
]


def given(pef, options, sections, addresses):
    """0, and the sections that were new with where they are; or the error."""
    with pef.Context(**{"limit": 0x18000, **options}) as context:
        context.add("there", fragment(16, 0))
        context.prepare("there")
        if context.new_sections("there") != []:
            return "new sections"
        if options.get("granule", 16) == 16:
            context.reserve(0x10100, 16)
        context.add("it", container([Section(total=size, align=align) for size, align in sections]))
        try:
            placed = context.prepare_at("it", addresses).root.sections
        except pef.PefError as error:
            return error.number, context.is_present("it")
        return 0, [(it.address, it.contents) for it in placed]


def granted(options, sections, addresses, answer):
    """What that gives."""
    if answer:
        return answer, False
    return 0, [(address, bytes(size)) for address, (size, _) in zip(addresses, sections)]


# The sizes and alignments of sections, what they take and their addresses are multiples of, with a granule of 16 and of 4096.
NEEDS = [
    ((0, 0), (16, 16), (4096, 4096)),
    ((1, 4), (16, 16), (4096, 4096)),
    ((17, 5), (32, 32), (4096, 4096)),
    ((4097, 13), (4112, 8192), (8192, 8192)),
    ((0xFFFFFFFF, 31), (0x100000000, 0x80000000), (0x100000000, 0x80000000)),
]


def needs(pef, granule):
    with pef.Context(granule=granule) as context:
        context.add("it", container([Section(total=size, align=align) for (size, align), _, _ in NEEDS]))
        return [(it.fragment, it.number, it.size, it.alignment) for it in context.new_sections("it")]


def checks(pef):
    for row, (options, sections, addresses, answer) in enumerate(GIVEN):
        yield f"sections at given addresses, row {row}", given(pef, options, sections, addresses), granted(options, sections, addresses, answer)
    for which, granule in ((1, 16), (2, 4096)):
        yield f"what sections need with a granule of {granule}", needs(pef, granule), [("it", number, *row[which]) for number, row in enumerate(NEEDS)]
    for options, steps in ROWS:
        yield f"sections with {options}", placed(pef, options, steps), [address for _, _, address in steps]
    for granule, good in GRANULES:
        yield f"a granule of {granule}", is_granule(pef, granule), good or 205
    them = Placed(pef, granule=4096, limit=0x20000)
    yield "a page", them.place(1, 0), 0x10000
    for address, size, free in BESIDE_A_PAGE:
        yield f"{size} bytes at {address:X} beside a page", is_reserved(pef, them.context, address, size), free
    yield "a page after them", them.place(1, 0), 0x12000
    yield f"beside {RANGES:,} ranges", beside_ranges(pef), [address for _, address in BESIDE_RANGES]
    for count, size, align, first, distance in MUCH:
        yield f"{count} sections of {size} bytes", much(pef, count, size, align), (count, [first + number * distance for number in range(count)], True)
