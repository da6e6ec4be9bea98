"""The least lengths of relocation programs without repeats, found in two ways.

`shortest_of_all` tries all programs, as docs/FORMATS.md says what they do, and finds the least length for each short list of fixups.
`Labels` goes from the last fixup to the first, as docs/CERTIFICATES.md says, and tries each end of each run. Neither uses anything of
this project, not even of `checker`.
"""
import itertools

SECTIONS, IMPORT = (0, 1), ("import", 0)
OTHER = 2  # any section that no fixup is by
MOST = 512  # how many times one instruction adds at most
SKIPPED = 63  # and one that skips first


# --- all programs ---


class Lists:
    """All lists of at most four fixups by two sections and an import, with their words in the first sixteen bytes."""

    LAST, FIXUPS, BASES = 12, 4, [*(("section", section) for section in SECTIONS), IMPORT]

    def __init__(self):
        self.lists, self.longer = [()], [{}]
        for number, fixups in enumerate(self.lists):  # it grows
            start = fixups[-1][0] + 4 if fixups else 0
            if len(fixups) < self.FIXUPS:
                for offset, base in itertools.product(range(start, self.LAST + 1), self.BASES):
                    self.longer[number][offset, base] = len(self.lists)
                    self.lists.append((*fixups, (offset, *base)))
                    self.longer.append({})

    def after(self, number, position, bases, step):
        """The lists after each addition of some bases, the next word `step` bytes after the one before it, and the position then.

        It ends with the first addition that leads to no list.
        """
        for base in bases:
            number = self.longer[number].get((position, base))
            if number is None:
                return
            position += step
            yield number, position


def one_instruction(lists, state):
    """The states that one instruction leads to, with its length: the list made so far, the position, the import index, and C and D.

    Positions after the last word are alike, since nothing is added there: all are one more than the last. The large forms are left out:
    they do what the small ones do, and are longer.
    """
    number, position, index, c, d = state
    past = lists.LAST + 1
    for moved in range(position + 1, past + 1):
        yield 1, (number, moved, index, c, d)
    for moved in range(past):
        yield 2, (number, moved, index, c, d)
    for section in (*SECTIONS, OTHER):
        yield 1, (number, position, index, section, d)
        yield 1, (number, position, index, c, section)

    def added(start, bases, step, indices=(index,) * MOST):
        for (made, at), following in zip(lists.after(number, start, bases, step), indices):
            yield 1, (made, min(at, past), following, c, d)

    for section in SECTIONS:
        yield from added(position, [("section", section)], 4)
    yield from added(position, [IMPORT], 4, [1])
    if index == 0:  # a run of imports begins with import 0, and no list has import 1
        yield from added(position, [IMPORT], 4, [1])
    yield from added(position, [("section", c)] * MOST, 4)
    for skipped in range(0, past - position, 4):
        yield from added(position + skipped, [("section", d)] * SKIPPED, 4)
    yield from added(position, [("section", d)] * MOST, 8)
    for gap in 0, 4:
        yield from pairs(lists, state, gap)


def pairs(lists, state, gap):
    """The states after each number of pairs: a word of C, one of D right after it, and a gap."""
    number, position, index, c, d = state
    while True:
        for section in c, d:
            number = lists.longer[number].get((position, ("section", section)))
            if number is None:
                return
            position += 4
        position += gap
        yield 1, (number, min(position, lists.LAST + 1), index, c, d)


def shortest_of_all():
    """Each list, with the least length of a program that makes it."""
    lists = Lists()
    start = (0, 0, 0, *SECTIONS)
    lengths, found = {start: 0}, {}
    reached = [[start]]
    for length, states in enumerate(reached):  # it grows
        for state in states:
            if lengths[state] < length:  # a shorter program leads there
                continue
            found.setdefault(lists.lists[state[0]], length)
            for more, following in one_instruction(lists, state):
                if lengths.get(following, length + more + 1) > length + more:
                    lengths[following] = length + more
                    reached += [[] for _ in range(length + more + 1 - len(reached))]
                    reached[length + more].append(following)
    return found


# --- labels ---


class Labels:
    """The least lengths from each state at each fixup. Fixups are (offset, kind, number), in address order.

    values: the sections used, and then None for all others. column[c, d]: the labels with these values in C and D, by fixup and at the end.
    looks: how often the value at a possible end of an instruction was read.
    """

    def __init__(self, fixups):
        self.fixups = fixups
        self.offsets = [offset for offset, _, _ in fixups]
        self.values = sorted({number for _, kind, number in fixups if kind == "section"}) + [None]
        self.column = {pair: [0] * (len(fixups) + 1) for pair in itertools.product(self.values, repeat=2)}
        self.skips = [None] * len(fixups)
        self.looks = 0
        self.index = self.indices()
        self.words, self.spaced, self.imports, self.pairs, self.spaced_pairs = self.runs()
        for at in reversed(range(len(fixups))):
            self.fill(at)

    def indices(self):
        """The import index before each fixup."""
        found, index = [], 0
        for _, kind, number in self.fixups:
            found.append(index)
            if kind == "import":
                index = number + 1
        return found

    def runs(self):
        """How many words of one base follow one another from each fixup on, 4 or 8 apart; imports; and pairs of sections, 8 or 12 apart."""
        count = len(self.fixups)
        words, spaced, imports, pairs, spaced_pairs = ([0] * (count + 2) for _ in range(5))

        def follows(at, other, distance, more):
            """Whether a fixup has the base of another that is so far before it, but for what is more in its number."""
            if other >= count:
                return False
            (offset, *base), (later, kind, number) = self.fixups[at], self.fixups[other]
            return later == offset + distance and [kind, number - more] == base

        for at in reversed(range(count)):
            words[at] = 1 + (words[at + 1] if follows(at, at + 1, 4, 0) else 0)
            spaced[at] = 1 + (spaced[at + 1] if follows(at, at + 1, 8, 0) else 0)
            imports[at] = 1 + (imports[at + 1] if follows(at, at + 1, 4, 1) else 0)
            if at + 1 < count and self.offsets[at + 1] == self.offsets[at] + 4:
                for table, apart in (pairs, 8), (spaced_pairs, 12):
                    again = follows(at, at + 2, apart, 0) and follows(at + 1, at + 3, apart, 0)
                    table[at] = 1 + (table[at + 2] if again else 0)
        return words, spaced, imports, pairs, spaced_pairs

    def value(self, at, position, c, d):
        """The least length when the fixups from this one on are left."""
        if at == len(self.fixups):
            return 0
        label, far = self.column[c, d][at], self.offsets[at] - position
        if far == 0:
            return label
        best = label + (1 if 1 <= far <= 4096 else 2)
        if self.skips[at] is not None and 1 <= far <= 5116:
            skip = self.skips[at][c] + (d != self.fixups[at][2])
            best = min(best, skip if far % 4 == 0 and far <= 1020 else skip + 1)
        return best

    def ends(self, at, count, taken, apart, c, d):
        """The least value after one instruction that makes up to so many parts of a run, each of so many fixups.

        After each part but the last the position is that of the next fixup.
        """
        self.looks += count
        best = self.value(at + taken * count, self.offsets[at] + apart * count, c, d)
        inside = self.column[c, d][at + taken : at + taken * count : taken]
        return 1 + min(inside + [best])

    def best_addition(self, at, c, d):
        """The least value after one instruction that adds at this fixup, with its length."""
        offset, kind, number = self.fixups[at]
        self.looks += 1
        alone = self.value(at + 1, offset + 4, c, d)
        if kind == "import":
            best = alone + (1 if number < 512 else 2)
            if number == self.index[at]:
                best = min(best, self.ends(at, min(MOST, self.imports[at]), 1, 4, c, d))
            return best
        best = alone + 1
        if number in (c, d):
            best = min(best, self.ends(at, min(MOST, self.words[at]), 1, 4, c, d))
        if number == d:
            best = min(best, self.ends(at, min(MOST, self.spaced[at]), 1, 8, c, d))
        if number == c and self.pairs[at] > 0 and self.fixups[at + 1][1:] == ("section", d):
            best = min(best, self.ends(at, min(MOST, self.pairs[at]), 2, 8, c, d))
            best = min(best, self.ends(at, min(MOST, self.spaced_pairs[at]), 2, 12, c, d))
        return best

    def fill(self, at):
        """Finds the labels of a fixup, and the least by a skip to it for each value of C."""
        _, kind, number = self.fixups[at]
        best = {pair: self.best_addition(at, *pair) for pair in self.column}
        # Each register that is set costs a halfword. First C is set, then D.
        for first in True, False:
            least = {}
            for (c, d), value in best.items():
                kept = d if first else c
                least[kept] = min(value, least.get(kept, value))
            best = {(c, d): min(value, least[d if first else c] + 1) for (c, d), value in best.items()}
        for pair, value in best.items():
            self.column[pair][at] = value
        if kind == "section":
            most = min(SKIPPED, self.words[at])
            skips = {c: self.ends(at, most, 1, 4, c, number) for c in self.values}
            least = min(skips.values())
            self.skips[at] = {c: min(value, least + 1) for c, value in skips.items()}

    def length(self):
        """The least length from the start."""
        c, d = (section if section in self.values else None for section in SECTIONS)
        return self.value(0, 0, c, d)

    def rows(self):
        """The labels of each fixup and of the end, with C outside and D inside."""
        return [list(row) for row in zip(*self.column.values())]
