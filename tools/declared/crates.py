"""The map of CONTRIBUTING.md: what each crate is, as the first sentence of its `src/lib.rt` or `src/main.rt` says."""
import pathlib
import re
from typing import Dict, List

from .header import ROOT
from .regions import with_regions

PAGE = ROOT / "CONTRIBUTING.md"
# What a sentence has in brackets about its source, and links to items of the crate.
SOURCE, LINK = re.compile(r" \([^()]*(?:\"|\.h`)[^()]*\)"), re.compile(r"\[(`[^`]*`)\](?:\([^)]*\))?")


def is_of_tests(crate: str) -> bool:
    return crate.startswith("test_") or crate.endswith("_tests")


def sentence(crate: str) -> str:
    """The first sentence of the comment that a crate begins with."""
    folder = ROOT / "crates" / crate / "src"
    root = folder / "lib.rt" if (folder / "lib.rt").is_file() else folder / "main.rt"
    comment: List[str] = []
    for line in root.read_text(encoding="utf-8").splitlines():
        if not line.startswith("//! "):
            break
        comment.append(line[4:].strip())
    text = LINK.sub(r"\1", SOURCE.sub("", " ".join(comment)))
    return re.split(r"\.(?: (?=[A-Z\[`])|$)", text, maxsplit=1)[0]


def in_order() -> List[str]:
    """The crates of crates.txt, each after those that it uses, and else in the order of that file."""
    uses: Dict[str, List[str]] = {}
    for line in (ROOT / "crates.txt").read_text(encoding="utf-8").splitlines():
        name, colon, used = line.split("#")[0].partition(":")
        if colon:
            uses[name.split()[0]] = used.split()
    order: List[str] = []

    def add(crate: str) -> None:
        for used in uses.get(crate, []):
            add(used)
        if crate in uses and crate not in order:
            order.append(crate)

    for crate in uses:
        add(crate)
    return order


def table(crates: List[str], head: str) -> str:
    return f"| Crate | {head} |\n|---|---|\n" + "".join(f"| `{crate}` | {sentence(crate)} |\n" for crate in crates)


def files() -> Dict[pathlib.Path, str]:
    order = in_order()
    texts = {
        "crates": table([it for it in order if not is_of_tests(it)], "What it is"),
        "crates of tests": table([it for it in order if is_of_tests(it)], "What it is"),
    }
    return {PAGE: with_regions(PAGE, texts, "<!-- {name}: tools/declarations writes this table from the first lines of their sources -->", "<!-- end -->")}
