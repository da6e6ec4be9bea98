"""Files that are written in part: what is between two lines that say so."""
import pathlib
import re
from typing import Dict, Optional


def with_regions(path: pathlib.Path, texts: Dict[str, str], begin: str, end: str, old: Optional[str] = None) -> str:
    """The text of a file in which each region has its new text. A region is between the lines `begin` with its name, and `end`. `old` is
    the text if it isn't that of the file as it is.
    """
    old = path.read_text(encoding="utf-8") if old is None else old
    for name, text in texts.items():
        first, last = re.escape(begin.format(name=name)), re.escape(end)
        found = re.findall(rf"^[ ]*{first}\n.*?^[ ]*{last}$", old, re.M | re.S)
        if len(found) != 1:
            raise SystemExit(f"{path}: there is no region {name}, or more than one")
        old = re.sub(rf"(^[ ]*{first}\n).*?(^[ ]*{last}$)", lambda it: it[1] + text + it[2], old, flags=re.M | re.S)
    return old
