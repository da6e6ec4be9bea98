"""What takes little time. The same is done in two ways: once so that the library can be fast, and once so that it can't, or as often as
if nothing were kept. Seconds of processor are compared, and the slow way has to take many times those of the fast one."""
import ctypes
import struct
import time

from data.bare import Section, container

# How many fragments use a library, and how often a fragment is prepared again.
USERS, AGAIN = 64, 50


def seconds(work, rounds=1):
    """The seconds of processor that some work takes, the least of some rounds."""
    times = []
    for _ in range(rounds):
        begun = time.process_time()
        work()
        times.append(time.process_time() - begun)
    return min(times)


def exporting(pef, count):
    return pef.link("section d data process 4 4\n" + "".join(f"export e{number} data d 0\n" for number in range(count)))


def importing(pef, count):
    return pef.link("library L 0 0 -\n" + "".join(f"import e{number} data strong\n" for number in range(count)))


def irregular(contents, count):
    """A library whose last key isn't the hash word of its name, so that its names are compared one after the other. The keys come before
    the exports, which have 10 bytes each."""
    at = len(contents) - 10 * count - 1
    return contents[:at] + bytes([contents[at] ^ 1]) + contents[at + 1 :]


def prepared(pef, fragments, reserved=(), **options):
    """Prepares the first of some fragments."""

    def work():
        with pef.Context(**options) as context:
            for address, size in reserved:
                context.reserve(address, size)
            for name, contents in fragments:
                context.add(name, contents)
            context.prepare(fragments[0][0])

    return work


def sought(pef, library, times):
    """Looks so many times for a name that a present fragment doesn't export."""
    context = pef.Context()
    context.add("L", library)
    fragment = context.prepare("L").fragments[0]

    def work():
        for _ in range(times):
            assert fragment.export_named("none") is None

    return work


def many_users(pef, user, library):
    """A fragment that needs many fragments with the same container, and their library."""
    root = "".join(f"library u{number} 0 0 -\n" for number in range(USERS))
    return [("root", pef.link(root)), *((f"u{number}", user) for number in range(USERS)), ("L", library)]


def again(pef, fragments, adds):
    """The seconds of a first preparation, and those of further ones of the same fragment. Before each of these a fragment may be added
    that no other one needs."""
    with pef.Context() as context:
        for name, contents in fragments:
            context.add(name, contents)
        begun = time.process_time()
        context.prepare(fragments[0][0])
        first = time.process_time()
        for number in range(AGAIN):
            if adds:
                context.add(f"other {number}", b"")
            context.prepare(fragments[0][0])
        return first - begun, time.process_time() - first


def with_libraries(count, in_order):
    """A container with so many libraries of one import each. If they aren't in order, the first two have each other's import."""
    firsts = list(range(count))
    if not in_order:
        firsts[:2] = 1, 0
    rows = b"".join(struct.pack(">5IBxxx", 0, 0, 0, 1, first, 0) for first in firsts) + bytes(4 * count)
    end = 56 + len(rows)
    tables = struct.pack(">iIiIiI8I", -1, 0, -1, 0, -1, 0, count, count, 0, end, end, end + 4, 0, 0) + rows + bytes(4)
    head = b"Joy!peffpwpc" + struct.pack(">5I2HI", 1, 0, 0, 0, 0, 1, 0, 0)
    return head + struct.pack(">iIIIIIBBBB", -1, 0, 0, 0, len(tables), 68, 4, 4, 4, 0) + tables


def read_imports(pef, contents, count):
    """Reads all imports with their libraries by one call, which reads them also if the container is damaged."""
    rows, found = (pef._Import * count)(), ctypes.c_size_t()

    def work():
        answer = pef.library().pef_partial_imports(contents, len(contents), 0, rows, count, ctypes.byref(found))
        assert (answer, found.value) == (0, count)

    return work


def found_errors(pef, contents):
    """Looks for all errors of a container, which has none."""
    first, count = pef._declarations._Finding(), ctypes.c_size_t()

    def work():
        assert pef.library().pef_findings(contents, len(contents), 0, ctypes.byref(first), 1, ctypes.byref(count)) == 0
        assert not first.is_error

    return work


def compared(pef):
    """Yields what is done, how many times the slow way has to take at least, and the seconds of both."""
    # Each name is found by its hash word, if the table is regular.
    library = exporting(pef, 16_000)
    fast, slow = (seconds(sought(pef, contents, 2_000)) for contents in (library, irregular(library, 16_000)))
    yield "names in a regular table", 4, fast, slow

    # A preparation makes an index of a table that isn't regular. If it searched the table for each import, four times as many imports
    # and exports would take sixteen times as long.
    few, many = (prepared(pef, [("A", importing(pef, count)), ("L", irregular(exporting(pef, count), count))]) for count in (4_000, 16_000))
    yield "imports from a table that isn't regular", 2, seconds(many, 3), 16 * seconds(few, 3)

    # The index is made once for several fragments.
    library, user = irregular(exporting(pef, 16_000), 16_000), importing(pef, 128)
    fast = seconds(prepared(pef, many_users(pef, user, library)), 3)
    yield "an index for several fragments", 8, fast, USERS * seconds(prepared(pef, [("A", user), ("L", library)]))

    # What closures found is kept, also if a fragment is added that none of them lacked.
    fragments = [("A", importing(pef, 5_000)), ("L", exporting(pef, 5_000))]
    for name, adds in (("further preparations", False), ("further preparations, each after an addition", True)):
        first, further = again(pef, fragments, adds)
        yield name, 10, further, AGAIN * first

    # A section is looked for from where the last one of its kind ended, also after a gap that is too small for each of them. If each was
    # looked for from the front, four times as many sections would take sixteen times as long.
    few, many = (prepared(pef, [("it", container([Section(total=17)] * count))], [(0x10010, 16)]) for count in (8_192, 32_768))
    yield "sections after a gap", 2, seconds(many, 3), 16 * seconds(few, 3)
    few, many = (prepared(pef, [("it", container([Section(total=0, align=12)] * count))], limit=0xFFFFFFF0) for count in (15_000, 60_000))
    yield "sections with gaps between them", 2, seconds(many, 3), 16 * seconds(few, 3)

    # Of a repeat the first pass and the last one are verified. A preparation adds to a word in each of its 4,194,303 passes.
    contents = container([Section(total=1 << 24)], [bytes.fromhex("4000 B03F FFFF")], symbol=True)
    yield "the passes of a repeat", 100, seconds(found_errors(pef, contents), 3), seconds(prepared(pef, [("it", contents)], limit=0xFFFFFFF0))

    # The library of each import is the next one, if they are in order.
    count = 200_000
    fast = seconds(read_imports(pef, with_libraries(count, True), count), 3)
    yield "libraries in order", 4, fast, seconds(read_imports(pef, with_libraries(count, False), count))


def checks(pef):
    for name, times, fast, slow in compared(pef):
        yield f"{name}: the slow way takes {times} times as long", times * fast <= slow, True
