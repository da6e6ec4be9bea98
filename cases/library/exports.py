"""Export tables: hash words, slots and powers. A table that is written here has the note 108 of `pef.inspect`, unless each key and each
slot is right; and those that are linked are compared byte for byte with what docs/FORMATS.md says."""
import struct

from assemble import hash_word, slot

IRREGULAR = 108

# Names and their hash words. The running values of long names reach the sign.
WORDS = [
    (b"", 0),
    (b"a", 0x00010061),
    (b"ab", 0x000200A0),
    (b"abc", 0x00030123),
    (b"go", 0x000200A1),
    (b"\x80\xFF", 0x000201FF),
    (b"\xC4\xE9\xF6", 0x00030234),
    (b"x" * 255, 0x00FFD486),
    (b"\xFF" * 255, 0x00FFCDC1),
    (b"\x80" * 300, 0x012C9ED1),
    (bytes((7 * number + 13) % 256 for number in range(255)), 0x00FF64A7),
]

# A power, and the slot of the hash word 000200A1.
SLOTS = [(0, 0), (1, 1), (4, 0xB), (17, 0xA0)]

# Names with the hash words and the slots that another linker wrote: twenty of the 177 exports of `SDL.PPC.STUB`, a stub library by
# CodeWarrior of 2002, which is in the source archive of SDL_mixer 1.2.12. Its hash table has the power 7.
WRITTEN_ELSEWHERE = [
    (b"SDL_CDStatus", 0x000C70E1, 0),
    (b"SDL_CreateRGBSurfaceFrom", 0x0018326E, 10),
    (b"SDL_JoystickNumBalls", 0x00144B9B, 12),
    (b"SDL_SetAlpha", 0x000C777D, 19),
    (b"SDL_ShowCursor", 0x000ED5B1, 26),
    (b"SDL_GetAudioStatus", 0x00127671, 29),
    (b"SDL_CondSignal", 0x000EF5CF, 36),
    (b"SDL_WM_GetCaption", 0x00114C34, 44),
    (b"SDL_ConvertAudio", 0x0010D889, 56),
    (b"SDL_putenv", 0x000AD80E, 62),
    (b"SDL_UnlockSurface", 0x0011E706, 72),
    (b"SDL_EventState", 0x000EE00C, 76),
    (b"SDL_GetAppState", 0x000FEC09, 81),
    (b"SDL_SemTryWait", 0x000ED6FB, 86),
    (b"SDL_LockSurface", 0x000FDF63, 93),
    (b"SDL_CondWaitTimeout", 0x0013AD3B, 97),
    (b"SDL_GetRGB", 0x000ADF54, 106),
    (b"SDL_CDPause", 0x000BB89E, 111),
    (b"SDL_FreeCursor", 0x000EE431, 121),
    (b"SDL_GL_LoadLibrary", 0x0012BD85, 126),
]

# How many exports, and the power of their table.
POWERS = [(0, 0), (9, 0), (10, 1), (19, 1), (20, 2), (16_383, 11)]


def container(power, rows):
    """A container that has a loader section alone, with numbers as its exports. Rows are in the order of their slots: a name, a key, and
    the slot."""
    slots, first = [], 0
    for number in range(1 << power):
        count = sum(at == number for _, _, at in rows)
        slots.append(count << 18 | first)
        first += count
    names, exports = b"", b""
    for name, _, _ in rows:
        exports += struct.pack(">IIh", len(names), 0, -2)
        names += name
    table = struct.pack(f">{len(slots)}I{len(rows)}I", *slots, *(key for _, key, _ in rows)) + exports
    loader = struct.pack(">iIiIiI8I", -1, 0, -1, 0, -1, 0, 0, 0, 0, 56, 56 + len(table), 56, power, len(rows)) + table + names
    head = b"Joy!peffpwpc" + struct.pack(">5I2HI", 1, 0, 0, 0, 0, 1, 0, 0)
    return head + struct.pack(">iIIIIIBBBB", -1, 0, 0, 0, len(loader), 68, 4, 4, 4, 0) + loader


def is_regular(pef, power, *rows):
    return IRREGULAR not in [it.number for it in pef.inspect(container(power, rows))]


def table_of(names, power=None):
    """The power, and the slots and keys with what is in them, as docs/FORMATS.md has them. That of a stub is 0."""
    if power is None:
        power = next(it for it in range(17) if it == 16 or len(names) >> it < 10)
    words = sorted(map(hash_word, names), key=lambda word: slot(word, power))
    places = [slot(word, power) for word in words]
    counts = {place: places.count(place) for place in set(places)}
    slots, first = [], 0
    for number in range(1 << power):
        slots.append(counts.get(number, 0) << 18 | first)
        first += counts.get(number, 0)
    return power, struct.pack(f">{len(slots)}I{len(words)}I", *slots, *words)


def keyed(contents, count):
    """The same of a container whose loader section comes last, and whose table ends it."""
    sections = int.from_bytes(contents[32:34], "big")
    loader = int.from_bytes(contents[40 + 28 * sections - 8 : 40 + 28 * sections - 4], "big")
    power = int.from_bytes(contents[loader + 48 : loader + 52], "big")
    end = len(contents) - 10 * count
    return power, contents[end - 4 * count - (4 << power) : end]


def importing(pef, names):
    """A stub of a library from which these names are imported. Each has another class."""
    imports = [(number % 5, name) for number, name in enumerate(names)]
    strings, places = b"L\0", []
    for _, name in imports:
        places.append(len(strings))
        strings += name + b"\0"
    rows = struct.pack(">5I4x", 0, 0, 0, len(imports), 0) + b"".join(struct.pack(">I", code << 24 | at) for (code, _), at in zip(imports, places))
    loader = struct.pack(">iIiIiI8I", -1, 0, -1, 0, -1, 0, 1, len(imports), 0, 56 + len(rows), 56 + len(rows), 0, 0, 0) + rows + strings
    head = b"Joy!peffpwpc" + struct.pack(">5I2HI", 1, 0, 0, 0, 0, 1, 0, 0)
    contents = head + struct.pack(">iIIIIIBBBB", -1, 0, 0, 0, len(loader), 68, 4, 4, 4, 0) + loader
    with pef.Context() as context:
        context.add("App", contents)
        return context.stub("L").contents


def checks(pef):
    for name, word in WORDS:
        text = f"{name[:8]!r}, {len(name)} bytes"
        yield f"the hash word of {text}", is_regular(pef, 0, (name, word, 0)), True
        yield f"another hash word of {text}", is_regular(pef, 0, (name, word ^ 1, 0)), False
        yield f"the hash word that is computed of {text}", hash_word(name), word
    for power, place in SLOTS:
        for beside in range(min(1 << power, 16)):
            at = place ^ beside
            yield f"go in slot {at} of 2^{power}", is_regular(pef, power, (b"go", 0x000200A1, at)), beside == 0
    yield "a table of CodeWarrior", is_regular(pef, 7, *WRITTEN_ELSEWHERE), True
    for name, word, place in WRITTEN_ELSEWHERE:
        yield f"{name} in its slot", is_regular(pef, 7, (name, word, place)), True
        yield f"{name} in the next slot", is_regular(pef, 7, (name, word, place + 1)), False
        yield f"{name} with another hash word", is_regular(pef, 7, (name, word ^ 0x80, place)), False
    for count, power in POWERS:
        names = [f"e{number}" for number in range(count)]
        linked = pef.link("section d data process 4 4\n" + "".join(f"export {name} data d 0\n" for name in names))
        expected = table_of([name.encode() for name in names])
        yield f"the power of {count:,} exports", expected[0], power
        yield f"the table of {count:,} exports", keyed(linked, count) == expected, True
    # in the order of keys: c d g h, and a b e f i j
    names = "abcdefghij"
    linked = pef.link("section d data process 4 4\n" + "".join(f"export {name} data d 0\n" for name in names))
    yield "the order of a to j", [it.name for it in pef.Container(linked).exports], list("cdghabefij")
    yield "the slots of a to j", keyed(linked, 10)[1][:8].hex(), "0010000000180004"
    names = [b"", b"go", b"\x80\xFF"]
    stub = importing(pef, names)
    yield "the table of any names", (keyed(stub, 3), table_of(names, 0)), ((0, bytes.fromhex("000C0000 00000000 000200A1 000201FF")),) * 2
    # as many symbols as there may be: two bytes each, of which none is 0
    names = [bytes([number // 255 + 1, number % 255 + 1]) for number in range(16_383)]
    yield "the table of 16,383 names of two bytes", keyed(importing(pef, names), 16_383) == table_of(names, 0), True
