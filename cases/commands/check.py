"""`pef check`: certificates that are valid and others, those of other sections, and errors. limits.py has the largest certificates."""
from data.refusals import MISSING, refused
from data.scripts import VECTORS, VECTORS_CERTIFIED
from suite import Case

CHECKED = b"section 0 yes 0\nsection 1 yes 1\n"


def without_fixups(*numbers):
    """Returns certificates of version 1 for sections without fixups."""
    return b"pefcert 1\n" + b"".join(b"section %d\nfixups 0\nlength 0\nprogram -\nregisters *\nat 0 0\n" % number for number in numbers)


def vectors(first_row):
    """Returns certificates of version 1 for `VECTORS`, by the first row of section 1."""
    return without_fixups(0) + b"section 1\nfixups 4\nlength 1\nprogram 4601\nregisters 0 1 *\n" + first_row + b"""
at 1 3 2 3 2 3 3 3 3 3
at 2 2 1 2 2 2 2 2 2 2
at 3 1 1 1 1 1 1 1 1 1
at 4 0 0 0 0 0 0 0 0 0
end
"""


PLAIN = b"section d data process 4 4\n"
END = b"end\n"
CASES = [
    Case(name, ["check", "a", "b"], {"a": script, "b": certificates}, stdout=printed, status=1 if b"no" in printed else 0)
    for name, script, certificates, printed in (
        ("both sections", VECTORS, VECTORS_CERTIFIED, CHECKED),
        ("a label that is too small", VECTORS, vectors(b"at 0 2 0 2 3 2 3 3 2 3"), b"section 0 yes 0\nsection 1 no\n"),
        ("a label that is too great", VECTORS, vectors(b"at 0 9 1 2 3 2 3 3 2 3"), b"section 0 yes 0\nsection 1 no\n"),
        ("one section without fixups", PLAIN, without_fixups(0) + END, b"section 0 yes 0\n"),
        ("no section", b"", b"pefcert 1\nend\n", b""),
    )
]

# Certificates for other sections are an error. It is reported after the last line was read, so a line that breaks a rule comes first, even after
# a certificate that isn't valid.
CASES += [
    Case(f"{error.decode()}: {name}", ["check", "a", "b"], {"a": script, "b": certificates}, **refused(error))
    for name, script, certificates, error in (
        ("no certificate", VECTORS, b"pefcert 1\nend\n", b"52 SectionsDiffer"),
        ("section 0 alone", VECTORS, without_fixups(0) + END, b"52 SectionsDiffer"),
        ("section 1 alone", PLAIN, without_fixups(1) + END, b"52 SectionsDiffer"),
        ("another order", VECTORS, without_fixups(1, 0) + END, b"52 SectionsDiffer"),
        ("another order, and a bad line", VECTORS, without_fixups(1) + b"section 0\nfixups x\n", b"51 BadCertificate line 9"),
        ("a wrong label, and a bad line", PLAIN, without_fixups(0)[:-2] + b"1\nsections 1\n", b"51 BadCertificate line 8"),
        ("another version", VECTORS, b"pefcert 3\n", b"51 BadCertificate line 1"),
        ("no line", VECTORS, b"", b"51 BadCertificate line 1"),
    )
]

# The script is parsed first.
SHORT = b"A line with this first word has 6 words. This one has 2.\n    section d\n             ^\n"
CASES += [
    Case(f"{error.decode()}: a script", ["check", "a", "b"], {"a": script, "b": certificates}, **refused(error, SHORT))
    for script, certificates, error in (
        (b"section d\n", b"pefcert 3\n", b"41 BadLine line 1"),
        (b"section d data process 4 8\nsection d\n", VECTORS_CERTIFIED, b"41 BadLine line 2"),
    )
]

# SCRIPT is read before CERT, and both before a line of either is parsed.
CASES += [
    Case(f"files {' '.join(words)}", ["check", *words], {"a": b"no line\n", "b": b""}, **refused(b"71 FileUnreadable " + missing, MISSING))
    for words, missing in ((["none", "b"], b"none"), (["a", "none"], b"none"), (["x", "y"], b"x"))
]
