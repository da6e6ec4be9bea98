"""What contexts do from call to call, by docs/RULES.md: fragments that are added and removed, ranges that are reserved and given back,
libraries that are missing, connections, what is present, what exports mean, and where an address is."""

SCRIPTS = {
    "": None,  # no container
    "four bytes": "versions 1 0 0\nsection d data process 4 4\n",
    "answer": "versions 1 0 0\nsection d data process 4 4\nexport answer data d 0\n",
    "user": "library Tools 1 0 -\nimport answer data strong\nsection d data process 4 8\nfix d 0 import answer\nfix d 4 section d\n",
    "weak": "library Late 1 0 weak\nimport v data strong\nsection d data process 4 4\nfix d 0 import v\n",
    "nothing": "versions 1 1 1\n",
    "newer": "library L 5 5 weak\nimport v data strong\nsection d data process 4 4\nfix d 0 import v\n",
    "asks": "library W 1 0 weak\nlibrary L 1 0 -\nlibrary S 7 5 -\n",
    "asks more": "versions 1 0 0\nlibrary X 1 0 weak\nlibrary W 2 1 -\n",
    "other version": "versions 3 2 0\n",
    # k at 10000, l at 10010; and the section of what passes them on is after them, at 10020
    "exports": "versions 1 0 0\nsection k const process 2 4\nsection l data process 4 8\nexport v data l 4\nabsolute n data 0x89ABCDEF\n",
    "passes on": "library N 1 0 -\nimport v data strong\nimport n data strong\nimport x code weak\nsection a data process 4 16\n"
    "export low tvector a 4\nexport high code a 12\nabsolute none glue 0\nreexport v data v\nreexport n data n\nreexport gone data x\n",
}

# Options, and calls in turn: the call, what it takes, and the number of its error or what it gives.
ROWS = [
    # the ends of a range are multiples of 16, and none meets another, a section, or the end of the addresses
    ({}, [("reserve", 0x10001, 0xF, 0), ("reserve", 0x10000, 0, 0), ("reserve", 0x1000F, 1, 67), ("reserve", 0xFFFFFFF0, 17, 67)]),
    ({}, [("reserve", 0x10001, 0xF, 0), ("add", "A", "four bytes", 0), ("prepare", "A", [0x10010]), ("reserve", 0x10010, 1, 67)]),
    # a range is given back whole, and no other addresses are
    ({}, [("reserve", 0x10000, 0x20, 0), ("unreserve", 0x10000, 0x10, 201), ("unreserve", 0x10030, 1, 201), ("unreserve", 0x10030, 0, 0)]),
    ({}, [("reserve", 0x10000, 0x20, 0), ("reserve", 0x10020, 0x10, 0), ("unreserve", 0x10000, 0x30, 201), ("unreserve", 0x1000F, 0x11, 0)]),
    ({}, [("reserve", 0x10000, 0x20, 0), ("unreserve", 0x1000F, 0x11, 0), ("unreserve", 0x10000, 0x20, 201), ("reserve", 0x10010, 1, 0)]),
    ({}, [("reserve", 0x10000, 1, 0), ("unreserve", 0x10000, 16, 0), ("add", "A", "four bytes", 0), ("prepare", "A", [0x10000])]),
    # errors of preparations with their names
    ({}, [("prepare", "A", (60, {})), ("add", "A", "", 0), ("prepare", "A", (1, {"fragment": "A"}))]),
    ({}, [("add", "A", "user", 0), ("prepare", "A", (61, {"fragment": "A", "library": "Tools"}))]),
    (
        {},
        [
            ("add", "A", "user", 0),
            ("add", "Tools", "four bytes", 0),
            ("prepare", "A", (62, {"fragment": "A", "library": "Tools", "symbol": "answer"})),
        ],
    ),
    # what a connection was prepared without can't be added while it is open
    (
        {},
        [
            ("add", "A", "weak", 0),
            ("add", "B", "four bytes", 0),
            ("prepare", "B", [0x10000]),
            ("add", "Late", "", 0),
            ("remove", "Late", 0),
            ("prepare", "A", [0x10010]),
            ("add", "more", "", 0),
            ("add", "Late", "", 203),
            ("close", "A", 0),
            ("add", "Late", "", 0),
        ],
    ),
    # what is present isn't removed, and neither is what a connection named without taking it
    (
        {},
        [
            ("remove", "Tools", 60),
            ("add", "Tools", "answer", 0),
            ("add", "L", "nothing", 0),
            ("add", "A", "newer", 0),
            ("add_new", "L", "nothing", 209),
            ("add", "L", "", 0),
            ("prepare", "A", [0x10000]),
            ("remove", "A", 207),
            ("remove", "L", 208),
            ("remove", "Tools", 0),
            ("prepare", "Tools", (60, {})),
            ("close", "A", 0),
            ("remove", "L", 0),
            ("remove", "L", 0),
            ("remove", "L", 60),
            ("add_new", "More", "answer", 0),
            ("prepare", "More", [0x10000]),
        ],
    ),
    # 256 fragments, and then another for one that is removed
    (
        {},
        [
            *(("add", str(number), "", 0) for number in range(256)),
            ("add", "more", "", 204),
            ("remove", "7", 0),
            ("add", "more", "", 0),
            ("add", "still more", "", 204),
        ],
    ),
    # connections are counted when they are closed, too
    ({"connections": 2}, [("add", "A", "four bytes", 0), *(("prepare", "A", [0x10000]), ("close", "A", 0)) * 2, ("prepare", "A", (69, {}))]),
    # bounds of steps and bytes: only what is new counts, in closure order. The user has two steps, its library none, and each takes 16 bytes
    (
        {"steps": 1},
        [
            ("add", "user", "user", 0),
            ("add", "Tools", "answer", 0),
            ("prepare", "user", (70, {"fragment": "user"})),
            ("present", "user Tools", []),
            ("prepare", "Tools", [0x10000]),
            ("prepare", "user", (70, {"fragment": "user"})),
            ("present", "user Tools", ["Tools"]),
        ],
    ),
    ({"steps": 2}, [("add", "user", "user", 0), ("add", "Tools", "answer", 0), ("prepare", "user", [0x10010])]),
    ({"bytes": 32}, [("add", "user", "user", 0), ("add", "Tools", "answer", 0), ("prepare", "user", [0x10010])]),
    ({"bytes": 31}, [("add", "user", "user", 0), ("add", "Tools", "answer", 0), ("prepare", "user", (75, {"fragment": "user"}))]),
    ({"bytes": 15}, [("add", "user", "user", 0), ("add", "Tools", "answer", 0), ("prepare", "user", (75, {"fragment": "Tools"}))]),
    (
        {"bytes": 16},
        [("add", "user", "user", 0), ("add", "Tools", "answer", 0), ("prepare", "Tools", [0x10000]), ("prepare", "user", [0x10010])],
    ),
    # a fragment is present while the closure of an open connection has it
    (
        {},
        [
            ("add", "user", "user", 0),
            ("add", "Tools", "answer", 0),
            ("present", "user Tools Late", []),
            ("prepare", "user", [0x10010]),
            ("prepare", "Tools", [0x10000]),
            ("present", "user Tools Late", ["user", "Tools"]),
            ("close", "user", 0),
            ("present", "user Tools Late", ["Tools"]),
            ("close", "Tools", 0),
            ("present", "user Tools Late", []),
        ],
    ),
    # missing libraries: weak ones too, each name once, by its stricter entry; and what there is of another version
    ({}, [("missing", "A", (60, {}))]),
    (
        {},
        [
            ("add", "A", "asks", 0),
            ("missing", "A", [("W", "A", 1, 0, True, None), ("L", "A", 1, 0, False, None), ("S", "A", 7, 5, False, None)]),
            ("add", "L", "asks more", 0),
            ("add", "S", "other version", 0),
            ("missing", "A", [("W", "L", 2, 1, False, None), ("X", "L", 1, 0, True, None), ("S", "A", 7, 5, False, (3, 2))]),
            ("missing", "S", []),
            ("prepare", "A", (61, {"fragment": "L", "library": "W"})),
            ("add", "W", "", 0),
            ("missing", "A", (1, {"fragment": "W"})),
        ],
    ),
    # what exports mean: the target, where it is, the class, and the import that is passed on
    (
        {},
        [
            ("add", "A", "passes on", 0),
            ("add", "N", "exports", 0),
            ("prepare", "A", [0x10020]),
            ("export", "none", ("absolute", 0, 4, None)),
            ("export", "n", ("absolute", 0x89ABCDEF, 1, 1)),
            ("export", "gone", ("missing", 0, 1, 2)),
            ("export", "v", ("in section", 0x10014, 1, 0)),
            ("export", "high", ("in section", 0x1002C, 0, None)),
            ("export", "hig", None),
        ],
    ),
    # where an address is, with the nearest export
    (
        {},
        [
            ("add", "A", "passes on", 0),
            ("add", "N", "exports", 0),
            ("prepare", "A", [0x10020]),
            ("at", 0xFFFF, None),
            ("at", 0x10003, ("N", 0, 3, None)),
            ("at", 0x10004, None),
            ("at", 0x10014, ("N", 1, 4, "v")),
            ("at", 0x10023, ("A", 0, 3, None)),
            ("at", 0x10024, ("A", 0, 4, "low")),
            ("at", 0x1002B, ("A", 0, 11, "low")),
            ("at", 0x1002F, ("A", 0, 15, "high")),
            ("at", 0x10030, None),
            ("close", "A", 0),
            ("at", 0x10014, None),
        ],
    ),
]


class Steps:
    """A context with its open connections, and what its calls give as plain values."""

    def __init__(self, pef, options):
        self.pef, self.context, self.open = pef, pef.Context(**options), []

    def contents(self, script):
        return b"" if SCRIPTS[script] is None else self.pef.link(SCRIPTS[script])

    def add(self, name, script):
        self.context.add(name, self.contents(script))

    def add_new(self, name, script):
        self.context.add_new(name, self.contents(script))

    def remove(self, name):
        self.context.remove(name)

    def reserve(self, address, size):
        self.context.reserve(address, size)

    def unreserve(self, address, size):
        self.context.unreserve(address, size)

    def prepare(self, name):
        self.open.append((name, self.context.prepare(name)))
        return [it.address for it in self.open[-1][1].root.sections]

    def close(self, name):
        at = [it for it, _ in self.open].index(name)
        self.open.pop(at)[1].close()

    def present(self, names):
        return [name for name in names.split() if self.context.is_present(name)]

    def missing(self, name):
        rows = self.context.missing(name)
        found = [None if it.found_version is None else (it.found_version, it.found_old_def_version) for it in rows]
        return [(it.name, it.fragment, it.current_version, it.old_imp_version, it.weak, had) for it, had in zip(rows, found)]

    def export(self, name):
        it = self.open[-1][1].root.export_named(name)
        return it and (it.target.kind, it.target.address, it.symbol_class, it.import_number)

    def at(self, address):
        it = self.context.at(address)
        return it and (it.fragment.name, it.section, it.offset, it.nearest and it.nearest.name)


def given(pef, steps, call, arguments, wanted):
    """What a call gives: 0 if it gives nothing, or its error: the number alone, unless its names are wanted."""
    try:
        it = getattr(steps, call)(*arguments)
    except pef.PefError as error:
        return (error.number, error.names) if isinstance(wanted, tuple) else error.number
    return 0 if it is None and wanted is not None else it


def checks(pef):
    for row, (options, calls) in enumerate(ROWS):
        steps = Steps(pef, options)
        for number, (call, *arguments, wanted) in enumerate(calls):
            yield f"row {row}, call {number}: {call} {arguments}", given(pef, steps, call, arguments, wanted), wanted
