"""Stubs of libraries that nobody has: what is lacking, what a stub exports, and what an import of it means (docs/RULES.md, "Stubs")."""
import struct

# The example of docs/RULES.md: two fragments that were linked with other versions of L.
FIRST = "library L 5 3 -\nimport f tvector strong\nsection d data process 4 4\nfix d 0 import f\n"
SECOND = "library L 2 0 weak\nimport f data strong\nimport g code weak\nsection d data process 4 8\nfix d 0 import g\nfix d 4 import f\n"
# A fragment with a strong, a weak and no library that is lacking.
APP = """library System 7 5 -
import beep tvector strong
library Extras 1 0 weak
import more data strong
library Tools 1 0 -
import answer data strong
section d data process 4 12
fix d 0 import beep
fix d 4 import more
fix d 8 import answer
"""
TOOLS = "library System 6 6 -\nimport ticks data strong\nsection d data process 4 4\nbytes d 0000002A\nfix d 0 import ticks\nexport answer data d 0\n"
# A vector and its code, then data: what is in memory of a stub that isn't numbers.
DRAWN = "library L 1 1 -\nimport draw tvector strong\nimport state data strong\nimport raw code strong\nsection d data process 4 12\n" + "".join(
    f"fix d {4 * number} import {name}\n" for number, name in enumerate(("draw", "state", "raw"))
)
ABSOLUTE = -2


def importing(library, imports):
    """A container that has a loader section alone, with imports from a library: for each the code of its class and its name, any bytes."""
    strings, places = library + b"\0", []
    for _, name in imports:
        places.append(len(strings))
        strings += name + b"\0"
    rows = b"".join(struct.pack(">I", code << 24 | place) for (code, _), place in zip(imports, places))
    tables = struct.pack(">5IBBH", 0, 0, 0, len(imports), 0, 0, 0, 0) + rows
    at = 56 + len(tables)
    export = at + len(strings) + -(at + len(strings)) % 4
    loader = struct.pack(">iIiIiI8I", -1, 0, -1, 0, -1, 0, 1, len(imports), 0, at, at, export, 0, 0) + tables + strings
    loader = loader.ljust(export, b"\0") + bytes(4)
    head = b"Joy!peffpwpc" + struct.pack(">5I2HI", 1, 0, 0, 0, 0, 1, 0, 0)
    return head + struct.pack(">iIIIIIBBBB", -1, 0, 0, 0, len(loader), 68, 4, 4, 4, 0) + loader


def context_of(pef, **fragments):
    context = pef.Context()
    for name, contents in fragments.items():
        context.add(name, pef.link(contents) if isinstance(contents, str) else contents)
    return context


def symbols(stub):
    """What a stub exports: names, classes, sections and values, by their values."""
    return [(it.name, int(it.symbol_class), it.section, it.value) for it in stub.symbols]


def versions(pef, stub):
    header = pef.Container(stub.contents).header
    return header.current_version, header.old_def_version, header.old_imp_version


def words(fragment):
    contents = fragment.sections[0].contents
    return [int.from_bytes(contents[at : at + 4], "big") for at in range(0, len(contents), 4)]


def number_of(pef, call):
    try:
        call()
    except pef.PefError as error:
        return error.number
    return None


def two_versions(pef):
    with context_of(pef, A=FIRST, B=SECOND) as context:
        yield "L is lacking, and isn't weak", [(it.name, it.weak) for it in context.lacking()], [("L", False)]
        (stub,) = context.add_stubs()
        yield "its versions", versions(pef, stub), (5, 2, 3)
        yield "its symbols", symbols(stub), [("f", 2, ABSOLUTE, 0xF0000000), ("g", 0, ABSOLUTE, 0xF0000010)]
        yield "inspect finds nothing", pef.inspect(stub.contents), []
        yield "the word of A", words(context.prepare("A").root), [0xF0000000]
        yield "the words of B", words(context.prepare("B").root), [0xF0000010, 0xF0000000]


def lacking(pef):
    with context_of(pef, damaged=b"Joy!", App=APP, Tools=TOOLS) as context:
        yield "in the order of the entries", [(it.name, it.weak) for it in context.lacking()], [("System", False), ("Extras", True)]
        yield "without weak ones", [it.library for it in context.add_stubs(weak=False)], ["System"]
        yield "what is left", [(it.name, it.weak) for it in context.lacking()], [("Extras", True)]
        yield "App can be prepared", words(context.prepare("App").root), [0xF0000000, 0, 0x10000]
    with context_of(pef, Tools=TOOLS, App=APP, Other="library None 1 0 -\n") as context:
        made = context.add_stubs("App", pef.StubNumbers(0x1000, 4))
        yield "those of App", [it.library for it in made], ["System", "Extras"]
        yield "numbers go on", [symbols(it) for it in made], [
            [("ticks", 1, ABSOLUTE, 0x1000), ("beep", 2, ABSOLUTE, 0x1004)],
            [("more", 1, ABSOLUTE, 0x1008)],
        ]
        yield "of all that asks for it", versions(pef, made[0]), (7, 6, 6)
        root = context.prepare("App").root
        yield "what App has", words(root), [0x1004, 0x1008, 0x10000]
        yield "what an import means", (root.import_target(0).kind, root.import_target(0).address), ("absolute", 0x1004)
        yield "what is a stub's no more", [it.name for it in context.lacking()], ["None"]
    with context_of(pef, App="library App 1 0 -\n") as context:
        yield "a fragment that needs itself", context.lacking(), []
    rows = "".join(f"library L{number} 0 0 weak\n" for number in range(300))
    with context_of(pef, App=rows) as context:
        yield "many", [it.name for it in context.lacking()], [f"L{number}" for number in range(300)]
        yield "more than a context takes", (number_of(pef, context.add_stubs), len(context.lacking())), (204, 300)


def memory(pef):
    with context_of(pef, App=DRAWN) as context:
        (stub,) = context.add_stubs("App", pef.StubMemory(0x00000060, 4))
        connection = context.prepare("App")
        placed = connection.fragments[0]
        code, data = placed.sections
        yield "two pieces of code", code.contents.hex(), "000000604e800020" * 2
        yield "a vector, and zeros", data.contents.hex(), f"{code.address:08x}{data.address:08x}" + "00" * 12
        yield "what is meant", words(connection.root), [data.address, data.address + 16, code.address + 8]
        yield "inspect finds nothing", pef.inspect(stub.contents), []
        yield "a stub is there once", context.add_stubs("App"), []


# Names that no script can have, and the longest that an export can have.
ANY_NAMES = [b"", b" ", b"a b", b"%41", b"#1", bytes(range(1, 32)), bytes(range(128, 256)), b"a" * 256, b"b" * 65535]


def names(pef):
    imports = [(number % 5, name) for number, name in enumerate(ANY_NAMES)]
    with context_of(pef, App=importing(b"a lib\xff", imports)) as context:
        (stub,) = context.add_stubs()
        found = [(it.name.encode(pef.ENCODING), int(it.symbol_class)) for it in stub.symbols]
        yield "any names", found, [(name, code) for code, name in imports]
        yield "the library's", stub.library.encode(pef.ENCODING), b"a lib\xff"
        yield "they are found", [pef.Container(stub.contents).find_export(name)[1].value for name in ANY_NAMES], [0xF0000000 + 16 * number for number in range(len(ANY_NAMES))]
        targets = [context.prepare("App").root.import_target(number).address for number in range(len(ANY_NAMES))]
        yield "they are bound", targets, [0xF0000000 + 16 * number for number in range(len(ANY_NAMES))]


def no_stub(pef, imports, values, more=()):
    """The number of the error; `more` are the imports of another fragment, since the names of one have to begin below 2^24."""
    with context_of(pef, App=importing(b"L", imports), More=importing(b"L", more)) as context:
        return number_of(pef, lambda: context.stub("L", values))


def refusals(pef):
    numbers, in_memory = pef.StubNumbers(0, 1), pef.StubMemory()
    most = [(1, b"%d" % number) for number in range(16384)]
    yield "16,383 symbols", no_stub(pef, most[1:], numbers), None
    yield "16,384 symbols", no_stub(pef, most, numbers), 211
    yield "a name of 65,536 bytes", no_stub(pef, [(1, b"a" * 65536)], numbers), 212
    long = [(1, b"%05d" % number + b"a" * 65530) for number in range(256)]
    yield "names of 16,777,215 bytes", no_stub(pef, long, numbers, [(1, b"b" * 255)]), None
    yield "names of 16,777,216 bytes", no_stub(pef, long, numbers, [(1, b"b" * 256)]), 213
    yield "the last number", no_stub(pef, [(1, b"a"), (1, b"b")], pef.StubNumbers(2**32 - 2, 1)), None
    yield "one past it", no_stub(pef, [(1, b"a"), (1, b"b")], pef.StubNumbers(2**32 - 1, 1)), 214
    yield "one number for all", no_stub(pef, [(1, b"a"), (1, b"b")], pef.StubNumbers(2**32 - 1, 0)), None
    yield "a name with a space, in memory", no_stub(pef, [(1, b"a b")], in_memory), 215
    yield "16,777,216 zeros", no_stub(pef, [(1, b"a")], pef.StubMemory(0, 2**24)), None
    yield "16,777,217 zeros", no_stub(pef, [(1, b"a")], pef.StubMemory(0, 2**24 + 1)), 216
    with context_of(pef, App=APP) as context:
        yield "numbers that are used up", (number_of(pef, lambda: context.add_stubs(values=pef.StubNumbers(2**32 - 1, 1))), len(context.lacking())), (214, 3)
        yield "no such fragment", number_of(pef, lambda: context.add_stubs("None")), 60


def checks(pef):
    for table in (two_versions, lacking, memory, names, refusals):
        for name, found, wanted in table(pef):
            yield f"{table.__name__}: {name}", found, wanted
