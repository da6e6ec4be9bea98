"""The errors of the translation."""


class Unknown(Exception):
    """Something in an object that the translation doesn't know."""


def check(holds, what):
    if not holds:
        raise Unknown(what)
