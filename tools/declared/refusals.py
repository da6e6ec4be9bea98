"""The names and the help of errors, notes and the library's own answers in Rattle, with their definitions: the crate pef_refusals."""
import pathlib
from typing import Dict, Iterator, List, NamedTuple, Tuple

from .errors import Group, Row, Table
from .header import ROOT

CRATE = ROOT / "crates/pef_refusals"
WRITTEN = "tools/declarations writes this file from docs/errors.table."
#: No line of Rattle is longer, if it can be split.
WIDTH = 100


class Kind(NamedTuple):
    """What a number has: a name or help, and what a sentence says of either. `module` has the definitions."""

    word: str
    said: str
    module: str
    title: str


NAME = Kind("name", "the name of", "Names", "Names of errors and notes")
HELP = Kind("help", "the help on", "Help", "What errors and notes mean, and what to do")


def text_of(row: Row, kind: Kind) -> str:
    return row.name if kind is NAME else row.help


# --- the ranges of the groups ---


def runs(table: Table) -> List[Tuple[int, int, str]]:
    """The first and the last number up to the next run, and the group, of each run of rows in one group. The last run has no end."""
    found: List[Tuple[int, str]] = []
    for row in table.rows:
        if not found or found[-1][1] != row.group:
            found.append((row.number, row.group))
    ends = [first - 1 for first, _ in found[1:]]
    return [(0 if number == 0 else first, end, group) for number, ((first, group), end) in enumerate(zip(found, [*ends, -1]))]


def arms(table: Table, kind: Kind) -> Iterator[str]:
    """The arms of a match over all groups. Their ranges have no number in common."""
    found = runs(table)
    last = found[-1][2]
    for group in dict.fromkeys(group for _, _, group in found if group != last):
        ranges = " | ".join(f"{first}..={end}" for first, end, its in found if its == group)
        yield f"        {ranges} => {group}_{kind.word}(number),\n"
    yield f"        _ => {last}_{kind.word}(number),\n"


# --- code ---


def arm(row: Row, kind: Kind) -> str:
    line = f'        {row.number} => Some("{text_of(row, kind)}"),'
    return line + "\n" if len(line) <= WIDTH else f'        {row.number} => Some(\n            "{text_of(row, kind)}",\n        ),\n'


def function(group: Group, kind: Kind, definitions: str) -> str:
    name = f"{group.name}_{kind.word}"
    return (
        f"/// Returns {kind.said} {group.about}.\n"
        f"#[tactic(auto, unfolding(crate::specs::{definitions}::{name}))]\n"
        f"fn {name}(number: u32) -> Option<&'static str>\n"
        f"    ensures {{ option_map (λ text. text.now) result ≡ {name} number }}\n"
        f"{{\n    match number {{\n{''.join(arm(row, kind) for row in group.rows)}        _ => None,\n    }}\n}}\n"
    )


def code(table: Table, kind: Kind) -> str:
    module, of_all, groups = kind.module, f"{kind.word}_of", table.groups
    used = ", ".join(sorted([of_all, *(f"{it.name}_{kind.word}" for it in groups)]))
    what = "the name of" if kind is NAME else "one or two sentences on"
    then = "" if kind is NAME else ": what it means, and what to do"
    return (
        f"//! {kind.title}. {WRITTEN}\n"
        "ghost use Rattle.std.specs.Prelude.{◌≡◌, option_map};\n"
        f"ghost use Rattle.pef_refusals.specs.{module}.{{{used}}};\n\n"
        f"/// Returns {what} the error or the note with this number, if there is one{then}.\n"
        f"pub fn {kind.word}(number: u32) -> Option<&'static str>\n"
        f"    ensures {{ option_map (λ text. text.now) result ≡ {of_all} number }}\n"
        f"{{\n    match number {{\n{''.join(arms(table, kind))}    }}\n}}\n\n"
        + "\n".join(function(it, kind, module) for it in groups)
    )


# --- definitions ---


def definition(group: Group, kind: Kind) -> str:
    name = f"{group.name}_{kind.word}"
    rows = "".join(f'{"else " if number else ""}if number == {row.number} then Some (codes "{text_of(row, kind)}")\n    ' for number, row in enumerate(group.rows))
    return f"unfoldable pub {name} : ℕ → Option (List ℕ)\n{name} number =\n    {rows}else None\n"


def definitions(table: Table, kind: Kind) -> str:
    of_all = f"{kind.word}_of"
    tests = "".join(f"{'else ' if number else ''}if nat_le number {end} then {group}_{kind.word} number\n    " for number, (_, end, group) in enumerate(runs(table)[:-1]))
    return (
        f"-- {kind.title}, by their numbers (docs/ERRORS.md). {WRITTEN}\n"
        "use Rattle.std.specs.Prelude.{◌==◌, ℕ, List, Option, None, Some, codes, if◌then◌else◌, nat_le}\n\n"
        + "\n".join(f"-- {it.about}\n{definition(it, kind)}" for it in table.groups)
        + f"\n-- all of them\nabbrev pub {of_all} : ℕ → Option (List ℕ)\n{of_all} number =\n    {tests}else {runs(table)[-1][2]}_{kind.word} number\n"
    )


# --- all of them ---


def files(table: Table) -> Dict[pathlib.Path, str]:
    return {
        CRATE / "src/names.rt": code(table, NAME),
        CRATE / "src/explanations.rt": code(table, HELP),
        CRATE / "specs/Names.antt": definitions(table, NAME),
        CRATE / "specs/Help.antt": definitions(table, HELP),
    }
