"""`pef.inspect`: the errors of damaged containers, with their offsets. What can be read of a stub library."""
from data.containers import RICH, SPELLED, STUB, VECTORS
from suite import changed


def with_words(container, words):
    return changed(container, *((at, word.to_bytes(4, "big")) for at, word in words.items()))


# What is damaged, a container with other words at some offsets, and the numbers and offsets of its errors.
DAMAGED = [
    ("nothing", VECTORS, {}, []),
    # Packed bytes that spell 16 bytes for an image of 8, and a program past the end of its section.
    ("nothing that list finds", RICH, {}, [(24, 235), (37, 383)]),
    ("nothing of a library", SPELLED, {}, []),
    ("the tag", VECTORS, {0: 0}, [(2, 0)]),
    ("architecture and version", VECTORS, {8: 0, 12: 7}, [(3, 8), (4, 12)]),
    # The code's raw bytes end past the end, and the program's section doesn't exist.
    ("a length and a section", VECTORS, {56: 0x200, 216: 0x90000}, [(6, 60), (17, 216)]),
    # The data's memory has room for one vector.
    ("the length of memory", VECTORS, {76: 8, 80: 8}, [(37, 228)]),
]


def checks(pef):
    for damaged, container, words, errors in DAMAGED:
        found = pef.inspect(with_words(container, words))
        yield f"errors of {damaged}", [(it.number, it.offset) for it in found if it.is_error], errors
    # Sections are tested before the loader section is looked for. One section may be instantiated.
    found = [(it.number, it.offset, it.detail, it.detail_kind.word) for it in pef.inspect(STUB)]
    yield "errors and notes of a stub library", found, [(10, 0, None, "none"), (7, 64, None, "none"), (116, 34, 1, "sections")]
    stub = pef.Container(STUB, damaged=True)
    found = [(it.name, it.section, it.value, int(it.symbol_class)) for it in stub.exports]
    yield "exports of a stub library", found, [("open", 1, 0, 1), ("read", 1, 4, 1), ("shut", 1, 8, 1)]
