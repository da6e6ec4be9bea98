"""The functions in C that translated text calls: those of the folder c/, and those that the tables of opcodes make."""
import functools
import pathlib
import re

from . import atomics, vectors

HERE = pathlib.Path(__file__).resolve().parent
WORD = re.compile(r"\w+")
DEFINED = re.compile(r"^PEF__INLINE [\w ]+?\b(\w+)\(", re.M)


def words(text):
    return set(WORD.findall(text))


@functools.cache
def all_helpers():
    """The text of each function. In a file of the folder c/, blank lines part them."""
    found = {}
    for name in ("accesses", "integers", "floats"):
        for block in (HERE / "c" / f"{name}.h").read_text().strip().split("\n\n"):
            found[DEFINED.search(block)[1]] = block
    found.update({name: text.strip() for name, text in {**vectors.HELPERS, **atomics.HELPERS}.items()})
    return found


def used_helpers(text):
    """The functions that a text calls and that they call, each after those that it calls itself."""
    known, placed = all_helpers(), {}

    def place(name):
        if name in placed:
            return
        for inner in sorted(words(known[name]) & known.keys() - {name}):
            place(inner)
        placed[name] = known[name]

    for name in sorted(words(text) & known.keys()):
        place(name)
    return list(placed.values())


def c_file(name):
    return (HERE / "c" / name).read_text().strip()


def defined_macros(texts):
    """The macros that a file has to forget at its end, in their order."""
    found = dict.fromkeys(name for text in texts for name in re.findall(r"^# ?define (\w+)", text, re.M))
    return list(found)
