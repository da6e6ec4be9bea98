"""Where errors are, as the standard error says it, in containers with several rows of a part. cases/library/places.py has more of them."""
from data.containers import RICH, TWICE, VECTORS
from data.refusals import at_byte, at_version, refused
from suite import Case, changed

SECOND_PROGRAM = b"at halfword 1 of the program of relocation header 1, both counted from 0, which is for section 0"

# The second halfword of the second program of `TWICE`, which begins at 198.
CASES = [
    Case(error.decode(), ["list", "a"], {"a": changed(TWICE, (200, halfword))}, **refused(error, at_byte(SECOND_PROGRAM, 200)))
    for halfword, error in ((b"\x4C\x00", b"31 BadOpcode"), (b"\xA0\x00", b"32 CutInstruction"), (b"\x91\x00", b"33 RepeatTooFar"))
]

# The versions that don't fit.
CASES.append(Case(
    "63 ImplementationTooOld", ["load", "r=rich", "Tools=go"], {"rich": RICH, "go": VECTORS},
    **refused(b"63 ImplementationTooOld in r library Tools", at_version(3, 2, 1, 0, 0, 297)),
))
