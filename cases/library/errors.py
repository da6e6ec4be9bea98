"""The numbers of errors, notes and answers: their names, and what they mean, as docs/errors.table has them."""
import pathlib
import sys

sys.path.append(str(pathlib.Path(__file__).resolve().parents[2] / "tools"))

from declared import errors  # noqa: E402


def checks(pef):
    rows = {it.number: it for it in errors.read().rows}
    for number in range(max(rows) + 3):
        it = rows.get(number)
        yield f"the name of {number}", pef.name_of(number), it and it.name
        yield f"the help of {number}", pef.help_of(number), it and it.help
