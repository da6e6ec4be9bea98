"""Reads docs/codes.table, and writes what follows from it. The table itself says what its rows have."""
import json
import pathlib
import re
from typing import Dict, List, NamedTuple, NoReturn, Optional

from .errors import Row as ErrorRow
from .errors import Table as ErrorTable
from .header import ROOT
from .regions import with_regions

PATH = ROOT / "docs/codes.table"
PYTHON = ROOT / "python/pef/_codes.py"
PAGE = ROOT / "web/words.js"
RUST = ROOT / "bindings/rust/pef/src"


class Code(NamedTuple):
    """A code: its number and its names."""

    number: int
    c_name: str
    rust_name: Optional[str]
    word: str
    text: str
    is_numbered: bool


class Group(NamedTuple):
    name: str
    about: str
    codes: List[Code]


def fails(what: str) -> NoReturn:
    raise SystemExit(f"docs/codes.table: {what}")


def code(line: str) -> Code:
    found = re.fullmatch(r"(\d+) +(PEF_[A-Z_]+) +(\w+|-) +([a-z-]+) +(\S.*?)( \+)?", line)
    return Code(int(found[1]), found[2], None if found[3] == "-" else found[3], found[4], found[5], bool(found[6])) if found else fails(f"{line!r} isn't understood")


def read() -> Dict[str, Group]:
    groups: Dict[str, Group] = {}
    group = None
    for line in PATH.read_text(encoding="utf-8").splitlines():
        heading = re.fullmatch(r"== (\w+) (\S.*)", line)
        if heading:
            group = groups[heading[1]] = Group(heading[1], heading[2], [])
        elif line and not line.startswith("#"):
            (group or fails("a row comes before any group")).codes.append(code(line))
    for group in groups.values():
        if [it.number for it in group.codes] != sorted({it.number for it in group.codes}):
            fails(f"the numbers of {group.name} aren't in order")
    return groups


# --- Python ---

PYTHON_HEAD = '''"""The codes of the format, and the numbers of errors and notes.

tools/declarations writes this file from docs/codes.table and docs/errors.table. Change those, and run it again.
"""
from __future__ import annotations

import enum
from typing import Dict, Type


class _Number(enum.IntEnum):
    """A number with a name. It is an int, and prints as one in each version of Python."""

    def __str__(self) -> str:
        return str(int(self))

    def __format__(self, form: str) -> str:
        return format(int(self), form)


class _Code(_Number):
    """A code of the format. `word` is that of scripts or of reports, and `text` is for people.

    >>> SectionKind(2), SectionKind.PATTERN == 2, str(SectionKind.PATTERN)
    (<SectionKind.PATTERN: 2>, True, '2')
    >>> SectionKind.PATTERN.word, SectionKind.PATTERN.text
    ('pattern', 'pattern-initialized data')
    """

    word: str
    text: str

    def __new__(cls, number: int, word: str, text: str) -> _Code:
        it = int.__new__(cls, number)
        it._value_, it.word, it.text = number, word, text
        return it


def _code(kind: Type[_Number], number: int) -> int:
    """The constant with this number, or the number if there is none."""
    try:
        return kind(number)
    except ValueError:
        return number

'''
PYTHON_NUMBERS = '''class Code(_Number):
    """What an error, a note or an answer is, by the names of pef.h: docs/ERRORS.md and docs/INSPECT.md explain each.

    Three pairs of errors have one printed name, and two names here.

    >>> Code(1), Code(25)
    (<Code.TOO_SHORT: 1>, <Code.PACKED_TOO_SHORT: 25>)
    """

    OK = 0
'''
#: What is an enum in Python. Those whose codes scripts spell have their words as names, the others what comes after these letters of C's.
ENUMS = {"SectionKind": None, "Share": None, "SymbolClass": None, "Usage": "PEF_USAGE_", "Locator": "PEF_LOCATOR_", "FileKind": "PEF_FILE_", "Part": "PEF_", "DetailKind": "PEF_DETAIL_"}
#: What is a dictionary of words, or of texts.
WORDS = {"KINDS": "SectionKind", "SHARES": "Share", "CLASSES": "SymbolClass", "FIXUP_KINDS": "FixupKind"}
TEXTS = {"TARGETS": "TargetKind", "PARTS": "Part"}


def python_name(it: Code, begin: Optional[str]) -> str:
    return it.word.upper() if begin is None else re.sub(r"_PART$", "", it.c_name[len(begin) :])


def python_enum(group: Group, begin: Optional[str]) -> str:
    rows = "".join(f'    {python_name(it, begin)} = {it.number}, "{it.word}", "{it.text}"\n' for it in group.codes)
    return f'class {group.name}(_Code):\n    """{group.about}"""\n\n{rows}'


def python_numbers(rows: List[ErrorRow]) -> str:
    named = "".join(f"    {row.c_name[len('PEF_') :]} = {row.number}\n" for row in rows if row.c_name)
    return PYTHON_NUMBERS + named


def dictionary(name: str, codes: List[Code], is_text: bool) -> str:
    return f"{name}: Dict[int, str] = {{\n" + "".join(f'    {it.number}: "{it.text if is_text else it.word}",\n' for it in codes) + "}\n"


def python(groups: Dict[str, Group], errors: ErrorTable) -> str:
    classes = [python_enum(groups[name], begin) for name, begin in ENUMS.items()] + [python_numbers(errors.rows)]
    tables = [dictionary(name, groups[of].codes, False) for name, of in WORDS.items()] + [dictionary(name, groups[of].codes, True) for name, of in TEXTS.items()]
    numbered = ", ".join(str(it.number) for it in groups["Part"].codes if it.is_numbered)
    return PYTHON_HEAD + "\n" + "\n\n".join(classes) + "\n\n" + "".join(tables) + f"#: The parts of which there can be several.\n_NUMBERED = {{PARTS[number] for number in ({numbered})}}\n"


# --- Rust ---


def rust_rows(group: Group, begin: str = "        ") -> str:
    return "".join(f'{begin}{it.rust_name} = {it.c_name} "{it.word}" "{it.text}",\n' for it in group.codes)


def rust_parts(group: Group) -> str:
    return "".join(f'    {it.rust_name} = {it.c_name}, "{it.text}", {str(it.is_numbered).lower()};\n' for it in group.codes)


# --- the page ---

SCRIPT_WORDS = {"kind": "SectionKind", "share": "Share", "class": "SymbolClass"}
PAGE_TABLES = {"KINDS": "SectionKind", "SHARES": "Share", "CLASSES": "SymbolClass", "USAGES": "Usage", "LOCATORS": "Locator"}


def javascript_table(codes: List[Code], is_text: bool, indent: str = "    ") -> str:
    return "{\n" + "".join(f"{indent}{it.number}: {json.dumps(it.text if is_text else it.word)},\n" for it in codes) + indent[4:] + "}"


def javascript(groups: Dict[str, Group]) -> str:
    first = "// Written by tools/declarations from docs/codes.table: the texts of codes, by their numbers, and of formats of files, by their words."
    tables = [f"export const {name} = {javascript_table(groups[of].codes, True)};" for name, of in PAGE_TABLES.items()]
    formats = "".join(f"    {it.word}: {json.dumps(it.text)},\n" for it in groups["FileKind"].codes)
    words = "".join(f"    {name}: {javascript_table(groups[of].codes, False, ' ' * 8)},\n" for name, of in SCRIPT_WORDS.items())
    more = [f"export const FORMATS = {{\n{formats}}};", f"/** The words of scripts and of JSON for codes. */\nexport const SCRIPT_WORDS = {{\n{words}}};"]
    return "\n\n".join([first, *tables, *more]) + "\n"


def files(groups: Dict[str, Group], errors: ErrorTable) -> Dict[pathlib.Path, str]:
    begin, end = "// {name}: written by tools/declarations from docs/codes.table", "// the end of what is written"

    def regions(name: str, texts: Dict[str, str]) -> Dict[pathlib.Path, str]:
        return {RUST / name: with_regions(RUST / name, texts, begin, end)}

    return {
        PYTHON: python(groups, errors),
        PAGE: javascript(groups),
        **regions("tables.rs", {name: rust_rows(groups[name]) for name in ("SectionKind", "Share", "SymbolClass")}),
        **regions("mac.rs", {name: rust_rows(groups[name]) for name in ("Usage", "Locator")}),
        **regions("error.rs", {"Part": rust_parts(groups["Part"])}),
        **regions("inspect.rs", {"DetailKind": rust_rows(groups["DetailKind"])}),
    }
