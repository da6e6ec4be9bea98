"""Lives of contexts, compared with a model: random lists of additions, removals, ranges that are reserved and given back, preparations of
both kinds, closings, and questions for missing libraries and new sections. The model is written after docs/RULES.md, and knows nothing of
containers."""
import dataclasses
import random
import struct

LIMIT, NAMES, LIVES = 0x10160, "ABCDE", 250
# The first steps of a life, and how often each kind comes among the 30 after them.
FIRST, OFTEN = "AAAA", "AA" + "PPPPPP" + "CC" + "RR" + "MM" + "DDD" + "UU" + "S" + "HHHHH"


class Refused(Exception):
    def __init__(self, number, **names):
        super().__init__(number, names)


@dataclasses.dataclass(frozen=True)
class Made:
    """A fragment of the model. It has an import from each of its libraries, and one export, which it may take from a library."""

    name: str
    sections: tuple  # of a size and an alignment exponent each
    libraries: tuple  # of a name, and whether the library is weak, and initialized before, each
    passes: str  # the library whose export is passed on; else the export is section 0

    @classmethod
    def random(cls, chance):
        libraries = tuple((name, chance.random() < 0.5, chance.random() < 0.2) for name in chance.sample(NAMES, chance.randrange(3)))
        others = ((chance.randrange(70), chance.randrange(8)) for _ in range(chance.randrange(3)))
        sections = ((4 + 4 * len(libraries) + chance.randrange(40), chance.randrange(8)), *others)
        return cls(chance.choice(NAMES), sections, libraries, chance.choice(libraries)[0] if libraries and chance.random() < 0.4 else None)

    def script(self):
        lines = ["versions 1 0 0"]
        for name, weak, before in self.libraries:
            options = ",".join(word for word, holds in (("weak", weak), ("before", before)) if holds)
            lines += [f"library {name} 1 0 {options or '-'}", f"import v{name} data strong"]
        lines += [f"section s{number} data process {alignment} {size}" for number, (size, alignment) in enumerate(self.sections)]
        lines += [f"fix s0 {4 * number} import v{name}" for number, (name, _, _) in enumerate(self.libraries)]
        lines += [f"fix s0 {4 * len(self.libraries)} section s0"]
        lines += [f"reexport v{self.name} data v{self.passes}" if self.passes else f"export v{self.name} data s0 0"]
        return "\n".join(lines) + "\n"


class Model:
    """What a context does, as docs/RULES.md has it, for fragments that are made as above."""

    def __init__(self, limit):
        self.limit, self.store, self.reserved, self.given = limit, [], [], 0
        self.connections = {}  # by their numbers: the closure, the order of initialization, and what was new
        self.placed = {}  # by the number of the fragment: the address and the bytes of each section

    def place_of(self, name):
        return next((number for number, it in enumerate(self.store) if it and it.name == name), None)

    def taken(self, placed):
        return self.reserved + [(address, address + -(-max(len(held), 1) // 16) * 16) for sections in placed.values() for address, held in sections]

    def add(self, made):
        missing = {name for order, _, _ in self.connections.values() for number in order for name, _, _ in self.store[number].libraries}
        if self.place_of(made.name) is None and made.name in missing:
            raise Refused(203)
        if self.place_of(made.name) is None and None in self.store:
            self.store[self.store.index(None)] = made
        else:
            self.store.append(made)

    def remove(self, name):
        number = self.place_of(name)
        if number is None:
            raise Refused(60)
        if number in self.placed:
            raise Refused(207)
        self.store[number] = None

    def reserve(self, address, size):
        begin, end = address // 16 * 16, -(-(address + size) // 16) * 16
        if size and (end > 2**32 or any(begin < other and this < end for this, other in self.taken(self.placed))):
            raise Refused(67)
        if size:
            self.reserved.append((begin, end))

    def unreserve(self, address, size):
        begin, end = address // 16 * 16, -(-(address + size) // 16) * 16
        if size and (begin, end) not in self.reserved:
            raise Refused(201)
        if size:
            self.reserved.remove((begin, end))

    def closure(self, root):
        order, met = [], set()

        def visit(number):
            met.add(number)
            for name, weak, _ in self.store[number].libraries:
                library = self.place_of(name)
                if library is None and not weak:
                    raise Refused(61, fragment=self.store[number].name, library=name)
                if library is not None and library not in met:
                    visit(library)
            order.append(number)

        visit(root)
        return order

    def missing(self, name):
        """What missing() gives: the name, the name of the fragment that names it, and whether it is weak."""
        root, noted, met = self.place_of(name), {}, set()
        if root is None:
            raise Refused(60)

        def visit(number):
            met.add(number)
            for library, weak, _ in self.store[number].libraries:
                found = self.place_of(library)
                if found is None and (library not in noted or noted[library][1] and not weak):
                    noted[library] = self.store[number].name, weak
                if found is not None and found not in met:
                    visit(found)

        visit(root)
        return [(library, *entry) for library, entry in noted.items()]

    def target(self, number, name):
        """The fragment whose section 0 the import from a library means; None for none."""
        at, symbol, met = self.place_of(name), f"v{name}", set()
        while at is not None and self.store[at].passes:
            if at in met:
                raise Refused(65, fragment=self.store[number].name, symbol=symbol)
            met.add(at)
            at = self.place_of(self.store[at].passes)
        return at

    def init_order(self, order):
        left, done = list(order), []

        def is_ready(number):
            needed = [self.place_of(name) for name, _, before in self.store[number].libraries if before]
            return all(it is None or it in done for it in needed)

        while left:
            number = next((it for it in left if is_ready(it)), None)
            if number is None:
                raise Refused(66, fragment=self.store[left[0]].name)
            left.remove(number)
            done.append(number)
        return done

    def address_for(self, size, alignment, placed):
        whole, step, taken = -(-max(size, 1) // 16) * 16, max(16, 2**alignment), self.taken(placed)
        return next(at for at in range(0x10000, self.limit - whole + 1, step) if all(at + whole <= this or other <= at for this, other in taken))

    def given_address(self, at, size, alignment, placed):
        """An address that was given, if a section can be there."""
        whole, step = -(-max(size, 1) // 16) * 16, max(16, 2**alignment)
        has_room = 0x10000 <= at <= self.limit - whole and at % step == 0
        if not has_room or any(at < other and this < at + whole for this, other in self.taken(placed)):
            raise StopIteration
        return at

    def found(self, name):
        """What is found before anything is placed: the closure, the targets, the order of initialization and what is new."""
        root = self.place_of(name)
        if root is None:
            raise Refused(60)
        order = self.closure(root)
        targets = {number: [self.target(number, library) for library, _, _ in self.store[number].libraries] for number in order}
        return order, targets, self.init_order(order), [number for number in order if number not in self.placed]

    def new_sections(self, name):
        """What new_sections() gives: the fragment's name, the number, the size and the alignment of each."""
        new = self.found(name)[3]
        rows = [(self.store[number].name, k, size, alignment) for number in new for k, (size, alignment) in enumerate(self.store[number].sections)]
        return [(fragment, k, -(-max(size, 1) // 16) * 16, max(16, 2**alignment)) for fragment, k, size, alignment in rows]

    def prepare(self, name, addresses=None):
        order, targets, init, new = self.found(name)
        if addresses is not None and len(addresses) != sum(len(self.store[number].sections) for number in new):
            raise Refused(210)
        placed, left = dict(self.placed), iter(addresses or ())
        for number in new:
            placed[number] = []
            for size, alignment in self.store[number].sections:
                try:
                    at = self.address_for(size, alignment, placed) if addresses is None else self.given_address(next(left), size, alignment, placed)
                    placed[number].append((at, bytes(size)))
                except StopIteration:
                    raise Refused(67, fragment=self.store[number].name) from None
        for number in new:
            address, held = placed[number][0]
            words = [0 if it is None else placed[it][0][0] for it in targets[number]] + [address]
            placed[number][0] = address, struct.pack(f">{len(words)}I", *words).ljust(len(held), b"\0")
        self.placed, self.given = placed, self.given + 1
        self.connections[self.given - 1] = order, init, [number for number in init if number in new]
        return self.given - 1

    def close(self, connection):
        if connection not in self.connections:
            raise Refused(68)
        del self.connections[connection]
        needed = {number for order, _, _ in self.connections.values() for number in order}
        self.placed = {number: sections for number, sections in self.placed.items() if number in needed}

    def released(self, connection):
        needed = {number for other, (order, _, _) in self.connections.items() if other != connection for number in order}
        return [number for number in reversed(self.connections[connection][1]) if number not in needed]


class Life:
    """A context and its model, which take the same steps."""

    def __init__(self, pef, chance, answers):
        self.pef, self.chance, self.answers = pef, chance, answers
        self.context, self.model, self.open = pef.Context(LIMIT), Model(LIMIT), {}
        self.kinds = {
            "A": self.add, "C": self.close, "D": self.remove, "H": self.prepare_at, "M": self.missing, "P": self.prepare,
            "R": self.reserve, "S": lambda: self.new_sections(self.name()), "U": self.unreserve,
        }  # fmt: skip

    def difference(self):
        """The first step after which both differ, or nothing."""
        kinds = FIRST + "".join(self.chance.choices(OFTEN, k=30))
        for number, kind in enumerate(kinds):
            try:
                self.kinds[kind]()
                self.compare()
            except AssertionError as found:
                return f"step {number} of {kinds[: number + 1]}: {found}"
        self.context.free()
        return ""

    def name(self):
        return self.chance.choice(NAMES)

    def add(self):
        made = Made.random(self.chance)
        self.both(lambda: self.model.add(made), lambda: self.context.add(made.name, self.pef.link(made.script())))

    def remove(self):
        name = self.name()
        self.both(lambda: self.model.remove(name), lambda: self.context.remove(name))

    def reserve(self):
        address = self.chance.choice([0xFF80, 0xFF80, 0xFFFFFF80]) + self.chance.randrange(0x400)
        size = self.chance.choice([0, 1, 16, 100])
        if address < 2**32:
            self.both(lambda: self.model.reserve(address, size), lambda: self.context.reserve(address, size))

    def unreserve(self):
        begin, end = self.chance.choice(self.model.reserved + [(0xFF80, 0xFF90)])
        size = end - begin + self.chance.choice([0, 0, 0, 16])
        self.both(lambda: self.model.unreserve(begin, size), lambda: self.context.unreserve(begin, size))

    def missing(self):
        name = self.name()
        self.both(lambda: self.model.missing(name), lambda: [(it.name, it.fragment, it.weak) for it in self.context.missing(name)])

    def new_sections(self, name):
        rows = lambda: [(it.fragment, it.number, it.size, it.alignment) for it in self.context.new_sections(name)]
        return self.both(lambda: self.model.new_sections(name), rows)

    def prepare(self):
        name = self.name()
        self.both(lambda: self.model.prepare(name), lambda: self.opened(self.context.prepare(name)))

    def prepare_at(self):
        name = self.name()
        addresses = self.addresses(self.new_sections(name) or [])
        self.both(lambda: self.model.prepare(name, addresses), lambda: self.opened(self.context.prepare_at(name, addresses)))

    def close(self):
        number = self.chance.choice([*self.open, self.model.given])
        self.both(lambda: self.model.close(number), lambda: self.pef.Connection(self.context, number).close())
        self.open.pop(number, None)

    def opened(self, connection):
        self.open[connection.number] = connection
        return connection.number

    def addresses(self, sections):
        """An address for each section: free ones from the end of the memory down, and now and then some other; seldom one too few or many."""
        found, end = [], LIMIT - self.chance.choice([0, 0, 16])
        for _, _, size, alignment in sections:
            end = (end - size) // alignment * alignment
            while any(end < other and this < end + size for this, other in self.model.taken(self.model.placed)) and end > 0x10000:
                end -= alignment
            found.append(end)
        if found and self.chance.random() < 0.2:
            found[self.chance.randrange(len(found))] = self.chance.choice([0, 0xFFF0, 0x10000, 0x10008, LIMIT, 0xFFFFFFF0])
        return found[: -1 if self.chance.random() < 0.03 else None] + [0x10100] * (self.chance.random() < 0.03)

    def both(self, *calls):
        """Has the model and the library do the same, and returns what both give."""
        given = []
        for call in calls:
            try:
                given.append((call(), (0, {})))
            except Refused as error:
                given.append((None, error.args))
            except self.pef.PefError as error:
                given.append((None, (error.number, error.names)))
        same(given[1], given[0])
        number = given[0][1][0]
        self.answers[number] = self.answers.get(number, 0) + 1
        return given[0][0]

    def compare(self):
        same(list(self.open), list(self.model.connections))
        for number, connection in self.open.items():
            found = [connection.fragments, connection.init_order, connection.new_fragments, connection.released]
            same([[it.number for it in them] for them in found], [*self.model.connections[number], self.model.released(number)])
            for it in connection.fragments:
                same([(section.address, section.contents) for section in it.sections], self.model.placed[it.number])
        same([name for name in NAMES if self.context.is_present(name)], [name for name in NAMES if self.model.place_of(name) in self.model.placed])


def same(found, expected):
    if found != expected:
        raise AssertionError(f"{found}, and not {expected}")


def checks(pef):
    chance, answers = random.Random(1997), {}
    for number in range(LIVES):
        yield f"life {number}", Life(pef, chance, answers).difference(), ""
    for number in (0, 60, 61, 65, 66, 67, 68, 203):
        yield f"{number} was an answer more than ten times", answers.get(number, 0) > 10, True
