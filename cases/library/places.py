"""Where errors are: the part, its number, the offset of a field in it, and that in the container. The offsets are counted by the format."""
from data.containers import RICH, VECTORS
from suite import changed

# Other bytes in `RICH`, and the error with its place. The loader section begins at 237, the libraries at 293, the imports at 341, the
# relocation headers at 353 and the exports at 469.
LISTED = [
    ((0, b"j"), 2, "container header", 0, 0, 0),
    ((142, b"\x00\x37"), 11, "loader header", 0, 0, 237),
    ((261, b"\xFF"), 12, "loader header", 0, 24, 261),
    ((317, b"\xFF"), 13, "library", 1, 0, 317),
    ((346, b"\xFF"), 13, "import", 1, 0, 345),
    ((490, b"\xFF"), 13, "export", 2, 0, 489),
    ((336, b"\x03"), 14, "library", 1, 16, 333),
    ((332, b"\x00"), 15, "import", 2, 0, 349),
    ((240, b"\x09"), 16, "main entry point", 0, 0, 237),
    ((248, b"\x09"), 16, "initialization routine", 0, 0, 245),
    ((256, b"\x09"), 16, "termination routine", 0, 0, 253),
    ((366, b"\x09"), 17, "relocation header", 1, 0, 365),
    ((369, b"\xFF"), 18, "relocation header", 1, 4, 369),
    ((281, b"\xFF"), 19, "loader header", 0, 44, 281),
    ((497, b"\x00\x09"), 20, "export", 2, 8, 497),
]

# The name of a fragment that is `RICH` with other bytes, what is changed of `VECTORS` as the library `Tools` if there is one, and the error
# with its place. The entry of `Tools` begins at 293. It needs version 3, or 2 at least. That of `A b` begins at 317: it is weak, and
# initialized first.
NO_LIBRARY = None
BOUND = [
    ("r", [], NO_LIBRARY, 61, "library", 0, 0, 293),
    ("r", [(313, b"\x40"), (337, b"\x00")], NO_LIBRARY, 61, "library", 1, 0, 317),
    ("r", [], [(31, b"\x03")], 62, "import", 0, 0, 341),
    ("r", [(341, b"\x82"), (345, b"\x01")], [(31, b"\x03")], 62, "import", 1, 0, 345),
    ("r", [], [], 63, "library", 0, 4, 297),
    ("r", [], [(23, b"\x04"), (31, b"\x04")], 64, "library", 0, 4, 297),
    # The fragment is its own library `A b`, and passes on its import `u`.
    ("A b", [(313, b"\x40"), (328, b"\x07"), (352, b"\x17")], NO_LIBRARY, 65, "import", 2, 0, 349),
    ("A b", [(313, b"\x40"), (328, b"\x07")], NO_LIBRARY, 66, "library", 1, 20, 337),
]


def place(pef, call):
    """The error of a call, with its place."""
    try:
        call()
    except pef.PefError as error:
        return error.number, error.part, error.row, error.field, error.offset
    return None


def prepare(pef, name, contents, library=NO_LIBRARY, call="prepare"):
    """Prepares a fragment, or asks what is missing for it, or which sections it would place."""
    with pef.Context() as context:
        context.add(name, contents)
        if library is not NO_LIBRARY:
            context.add("Tools", library)
        getattr(context, call)(name)


def checks(pef):
    for change, *error in LISTED:
        contents = changed(RICH, change)
        yield f"{error[0]} of {error[1]} {error[2]}", place(pef, lambda: pef.Container(contents)), tuple(error)
        for call in ("prepare", "missing", "new_sections"):
            yield f"{error[0]} of {error[1]} {error[2]} by {call}", place(pef, lambda: prepare(pef, "r", contents, call=call)), tuple(error)
    for name, changes, library, *error in BOUND:
        tools = NO_LIBRARY if library is NO_LIBRARY else changed(VECTORS, *library)
        for call in ("prepare", "new_sections"):
            found = place(pef, lambda: prepare(pef, name, changed(RICH, *changes), tools, call))
            yield f"{error[0]} of {error[1]} {error[2]} in {name} by {call}", found, tuple(error)
