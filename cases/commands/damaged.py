"""`pef list` of each damaged container: the first error, and its place on the standard error."""
from data.damaged import ERRORS
from suite import Case


def listed(number, error):
    words = ", ".join(f"{at} is {word:08X}" for at, word in error.words)
    return Case(f"{number}: {error.number} if {words}", ["list", "a.pef"], {"a.pef": error.contents}, **error.printed)


CASES = [listed(number, error) for number, error in enumerate(ERRORS)]
