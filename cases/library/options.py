"""Contexts with bounds of steps and bytes: each at its border, and which error comes first. preparing.c has more of them."""
from data.bare import Section, container

WORD, LARGE = [4], [0x1000000]
MOVES = "8000 8000"  # two steps
# Four instructions, and a repeat that runs them 4,194,302 further times: 16,777,213 steps.
LONG = "8000 8000 8000 8000 B0FF FFFE"

# The lengths of the sections, a program for the first one and how many relocation headers have it, the options, and the error or 0.
ROWS = [
    # the steps of all programs count, and each repeat is one more
    (WORD, MOVES, 1, {"steps": 2}, 0),
    (WORD, MOVES, 1, {"steps": 1}, 70),
    (WORD, MOVES, 3, {"steps": 6}, 0),
    (WORD, MOVES, 3, {"steps": 5}, 70),
    (WORD, "8000 90FF", 1, {"steps": 258}, 0),
    (WORD, "8000 90FF", 1, {"steps": 257}, 70),
    (WORD, LONG, 1, {"steps": 16_777_213}, 0),
    (WORD, LONG, 1, {"steps": 16_777_212}, 70),
    # a program that can't be read has no steps, and is refused in its turn
    (WORD, "8000 8000 4C00", 1, {"steps": 1}, 31),
    # few bytes that would take minutes of relocation
    (WORD, LONG, 4_000, {"steps": 20_000_000}, 70),
    # a section takes at least one byte, rounded up to a multiple of the granule
    ([], "", 0, {"bytes": 1}, 0),
    ([17, 0], "", 0, {"bytes": 48}, 0),
    ([17, 0], "", 0, {"bytes": 47}, 75),
    ([17, 0], "", 0, {"bytes": 8_192, "granule": 4_096}, 0),
    ([17, 0], "", 0, {"bytes": 8_191, "granule": 4_096}, 75),
    ([0xFFFFFFFF], "", 0, {"bytes": 0x10000000, "limit": 0xFFFFFFFF}, 75),
    # bytes are tested before steps, and steps before room and before programs are applied
    (LARGE, MOVES, 1, {"limit": 0x1000000, "bytes": 1, "steps": 1}, 75),
    (LARGE, MOVES, 1, {"limit": 0x1000000, "steps": 1}, 70),
    (LARGE, MOVES, 1, {"limit": 0x1000000, "steps": 2}, 67),
    (WORD, "8000 4A00", 1, {"steps": 1}, 70),
    (WORD, "8000 4A00", 1, {"steps": 2}, 38),
]


def prepared(pef, contents, options):
    """The number of the error, or 0; the names that it has; and whether the fragment is present."""
    number, names = 0, {}
    with pef.Context(**options) as context:
        context.add("it", contents)
        try:
            context.prepare("it")
        except pef.PefError as error:
            number, names = error.number, error.names
        return number, names, context.is_present("it")


def checks(pef):
    for totals, program, times, options, number in ROWS:
        contents = container([Section(total=total) for total in totals], [bytes.fromhex(program)] if times else [], times=times)
        expected = (number, {"fragment": "it"} if number else {}, number == 0)
        yield f"{times} times {program} in {totals}, {options}", prepared(pef, contents, options), expected
