"""What is written from docs/errors.table besides Rattle: the constants of pef.h, `Code` of Rust, the tables of the documents, and the help
that the tests of the program expect."""
import pathlib
import textwrap
from typing import Dict, Iterator, List, Tuple

from .errors import Row, Table
from .header import ROOT
from .regions import with_regions

HEADER = ROOT / "include/pef.h"
CODE = ROOT / "bindings/rust/pef/src/code.rs"
ERRORS, INSPECT = ROOT / "docs/ERRORS.md", ROOT / "docs/INSPECT.md"
HELP = ROOT / "cases/data/help.py"


# --- C ---


def comment(text: str) -> str:
    """A comment, in lines if it is long. Its mark at the end stays beside the last word."""
    lines = textwrap.wrap(f"/* {text}\0*/", 120, subsequent_indent=" * ", break_on_hyphens=False)
    return "\n".join(lines).replace("\0", " ") + "\n"


def constants(table: Table) -> str:
    """The constants, with an empty line before each comment."""
    text = ""
    for row in table.rows:
        if row.head:
            text += "\n" + comment(row.head)
        if row.c_name:
            text += f"#define {row.c_name} {row.number}\n"
    return text + "\n"


# --- Rust ---


def camel(c_name: str) -> str:
    """BadTag of PEF_BAD_TAG."""
    return "".join(word.capitalize() for word in c_name.split("_")[1:])


def variants(table: Table) -> str:
    return "".join(f"    {camel(row.c_name)} = {row.c_name},\n" for row in table.rows if row.c_name)


# --- the documents ---


def markdown(rows: List[Row], heads: str) -> str:
    lines = [f"| No. | Name | {heads} | What to do |", "|---:|---|---|---|"]
    return "\n".join([*lines, *(f"| {row.number} | {row.name} | {row.cause} | {row.do} |" for row in rows)]) + "\n"


def numbers(rows: List[Row]) -> str:
    """`6, 7`, or `6 to 9` for three and more in a row."""
    found: List[List[int]] = []
    for row in rows:
        if found and found[-1][-1] + 1 == row.number:
            found[-1].append(row.number)
        else:
            found.append([row.number])
    return ", ".join(f"{run[0]} to {run[-1]}" if len(run) > 2 else ", ".join(map(str, run)) for run in found)


def places(table: Table) -> Iterator[Tuple[List[Row], str]]:
    """The rows about one part, with their fields: in one line if each row has another field, or all have the same."""
    parts: Dict[str, List[Row]] = {}
    for row in table.rows:
        if row.part:
            parts.setdefault(row.part, []).append(row)
    for rows in parts.values():
        fields = [row.field or "" for row in rows]
        if len({*fields}) in (1, len(fields)):
            yield rows, fields[0] if len({*fields}) == 1 else ", ".join(fields)
        else:
            for field in dict.fromkeys(fields):
                yield [row for row in rows if (row.field or "") == field], field


def places_table(table: Table) -> str:
    lines = ["| Errors | Part | Field |", "|---|---|---|"]
    return "\n".join([*lines, *(f"| {numbers(rows)} | {rows[0].part} | {field} |".replace("|  |", "| |") for rows, field in places(table))]) + "\n"


def is_of_file(row: Row) -> bool:
    """Whether a note is about a file, and has a part of it."""
    return row.found == "mac_rows"


def files(table: Table) -> Dict[pathlib.Path, str]:
    groups = {it.name: it.rows for it in table.groups}
    printed = [row for row in table.rows if row.group not in ("mac", "note", "library")]
    tables = {
        "errors": markdown(printed, "Cause"),
        "answers": markdown(groups["library"], "Cause"),
        "errors of files": markdown(groups["mac"], "Cause"),
        "places": places_table(table),
    }
    notes = {
        "notes": markdown([row for row in groups["note"] if not is_of_file(row)], "Meaning"),
        "notes on files": markdown([row for row in groups["note"] if is_of_file(row)], "Meaning"),
    }
    header_begin, begin, end = "Written by tools/declarations from docs/errors.table:", "<!-- {name}: tools/declarations writes this table from errors.table -->", "<!-- end -->"
    help_lines = "".join(f'    {row.number}: b"{row.help}\\n",\n' for row in table.rows)
    name_lines = "".join(f'    {row.number}: b"{row.name}",\n' for row in table.rows)
    return {
        HEADER: with_regions(HEADER, {"": constants(table)}, f"/* {header_begin} */", "/* The end of what is written. */"),
        CODE: with_regions(CODE, {"Variants": variants(table)}, "// {name}, written by tools/declarations from docs/errors.table:", "// The end of what is written."),
        ERRORS: with_regions(ERRORS, tables, begin, end),
        INSPECT: with_regions(INSPECT, notes, begin, end),
        HELP: '"""The name and the help of each error, note and answer, by its number. Of an error that ends a command the standard error says\n'
        'the help first. What is known of its place may follow, in other lines.\n\n'
        'tools/declarations writes this file from docs/errors.table.\n"""\n\nNAMES = {\n' + name_lines + "}\n\nHELP = {\n" + help_lines + "}\n",
    }
