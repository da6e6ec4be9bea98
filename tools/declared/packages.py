"""The symbols of the Debian package libpef0: the calls, each with the version that was the first to have it."""
import pathlib
import re
from typing import Dict

from . import header
from .header import Header

PATH = header.ROOT / "packaging/libpef0.symbols"


def files(declared: Header) -> Dict[pathlib.Path, str]:
    """A call that the file doesn't have yet is new in the version that the header has."""
    old = PATH.read_text(encoding="utf-8")
    first = dict(re.findall(r"^ (\w+)@Base (\S+)$", old, re.M))
    version = next(it.value.strip('"') for it in declared.macros if it.name == "PEF_VERSION")
    head = re.match(r"(?:[^ ].*\n)*", old)
    symbols = "".join(f" {name}@Base {first.get(name, version)}\n" for name in sorted(it.name for it in declared.calls))
    return {PATH: (head[0] if head else "") + symbols}
