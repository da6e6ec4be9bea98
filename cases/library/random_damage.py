"""Containers and files with random damage: what is found in them never contradicts what the other calls read."""
import pathlib
import random
import sys

from data import containers
from data.mac_files import fragment_file

ROOT = pathlib.Path(__file__).resolve().parents[2]
sys.path.append(str(ROOT / "fuzz"))

from damage import several  # noqa: E402

SCRIPTS = sorted((ROOT / "examples").glob("*.pefscript"))
COPIES, FILES = 40, 2000


def sound_containers(pef):
    """The containers of the examples, by the names of their scripts."""
    for script in SCRIPTS:
        try:
            yield script.stem, pef.link(script.read_bytes())
        except pef.PefError:
            continue


def contradiction(pef, contents):
    """What contradicts something else, or nothing."""
    errors = [it.number for it in pef.inspect(contents) if it.is_error]
    try:
        pef.Container(contents)
        first = 0
    except pef.PefError as error:
        first = error.number
    if first not in errors if first else any(number <= 20 for number in errors):
        return f"the first error is {first}, and all are {errors}"
    try:
        it = pef.Container(contents, damaged=True)
    except pef.PefError as error:
        return "" if error.number in (1, 2) and first == error.number else f"{error} beside {errors}"
    repr((it, it.libraries, it.imports, it.relocations, it.exports, it.entries))
    known = len(it.sections) <= it.header.section_count and all(section.raw in contents for section in it.sections)
    return "" if known else "sections that aren't there"


def as_ever(pef, contents):
    """Whether a sound container has the same rows if it is read as one that may be damaged."""
    one, other = pef.Container(contents), pef.Container(contents, damaged=True)
    tables = ("header", "sections", "libraries", "imports", "relocations", "exports", "entries")
    names = all(one.find_export(it.name) == other.find_export(it.name) for it in one.exports)
    return names and [table for table in tables if getattr(one, table) != getattr(other, table)] == []


def checks(pef):
    chance = random.Random(1904)
    for name, contents in sound_containers(pef):
        yield f"errors of {name}", [it.number for it in pef.inspect(contents) if it.is_error], []
        yield f"{name}, read as one that may be damaged", as_ever(pef, contents), True
        for number in range(COPIES):
            yield f"{name}, damaged copy {number}", contradiction(pef, several(chance, contents)), ""
    whole = fragment_file(containers.VECTORS)
    for number in range(FILES):
        file = pef.MacFile(several(chance, whole))
        named = all(it.number and it.name for it in file.errors) and all(it.contents is not None for it in file.containers)
        yield f"a damaged file of the classic Mac OS, copy {number}", named, True
