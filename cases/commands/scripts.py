"""`pef link` of each script with an error: the line that is printed, what is said of the place, and that no file is written."""
from data.script_errors import ERRORS
from suite import Case


def refused(number, error):
    what = error.text.split("\n")[error.line - 1][:40]
    return Case(
        f"{number} {what!r} is {error.number}",
        ["link", "a.pefscript", "out.pef"],
        {"a.pefscript": error.contents},
        stdout=error.printed,
        stderr=error.explained,
        status=1,
    )


CASES = [refused(number, error) for number, error in enumerate(ERRORS)]
