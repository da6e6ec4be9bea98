"""Reads docs/errors.table: errors, notes and the library's own answers. The table itself says what its rows have."""
import re
from typing import Dict, List, NamedTuple, NoReturn, Optional

from .header import ROOT

PATH = ROOT / "docs/errors.table"
NEEDED = {"found", "cause", "do", "help"}
ALLOWED = {*NEEDED, "head", "at"}


class Row(NamedTuple):
    """An error, a note or an answer."""

    number: int
    name: str
    c_name: Optional[str]
    group: str
    head: Optional[str]
    found: str
    part: Optional[str]
    field: Optional[str]
    cause: str
    do: str
    help: str


class Group(NamedTuple):
    """Rows whose names and help one function gives: its name, and what they are about."""

    name: str
    about: str
    rows: List[Row]


class Table(NamedTuple):
    """All rows in the order of their numbers, and the groups in the order of their first ones."""

    rows: List[Row]
    groups: List[Group]


def fails(what: str) -> NoReturn:
    raise SystemExit(f"docs/errors.table: {what}")


def row(lines: List[str], group: str) -> Row:
    found = re.fullmatch(r"(\d+) ([A-Za-z]+) (PEF_[A-Z_]+|-)", lines[0])
    if not found:
        fails(f"{lines[0]!r} isn't a number and two names")
    words: Dict[str, str] = {}
    for line in lines[1:]:
        part = re.fullmatch(r"    (\w+) +(\S.*)", line)
        if not part or part[1] not in ALLOWED or part[1] in words:
            fails(f"{line!r} of {found[1]} isn't understood")
        words[part[1]] = part[2]
    if not NEEDED <= {*words}:
        fails(f"{found[1]} lacks {', '.join(sorted(NEEDED - {*words}))}")
    if re.search(r'[^ -~]|["\\]', words["help"]):
        fails(f"the help of {found[1]} has a character that isn't allowed in it")
    place, _, field = words.get("at", "").partition(": ")
    c_name = None if found[3] == "-" else found[3]
    where = place or None, field or None
    return Row(int(found[1]), found[2], c_name, group, words.get("head"), words["found"], *where, words["cause"], words["do"], words["help"])


def read() -> Table:
    rows: List[Row] = []
    groups: Dict[str, Group] = {}
    group = ""
    text = PATH.read_text(encoding="utf-8")
    for block in re.split(r"\n\n+", "\n".join(line for line in text.splitlines() if not line.startswith("#")).strip("\n")):
        lines = block.split("\n")
        heading = re.fullmatch(r"== (\w+)(?: (.*))?", lines[0])
        if heading:
            group = heading[1]
            groups.setdefault(group, Group(group, heading[2] or "", []))
            lines = lines[1:]
        if lines:
            rows.append(row(lines, group))
            groups[group].rows.append(rows[-1])
    for one, next_one in zip(rows, rows[1:]):
        if one.number >= next_one.number:
            fails(f"{next_one.number} follows {one.number}")
    names = [it.c_name for it in rows if it.c_name]
    if len({*names}) != len(names):
        fails("two rows have the same name in C")
    return Table(rows, list(groups.values()))
