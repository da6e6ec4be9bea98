"""`pef load` of libraries that `link` doesn't write: other bytes in containers written by hand, and re-exports in a cycle."""
from assemble import Library, Loader, Section, container
from data.containers import SPELLED, TWICE
from data.help import HELP
from suite import Begins, Case, changed

# A fragment that needs the library `P`, and nothing of it.
NEEDS_P, _ = container([], Loader([Library(b"P")]))

# The library with three bytes of pattern-initialized data: the byte 7F ten times.
PACKED = changed(SPELLED, (64, b"\x02"), (59, b"\x03"), (96, b"\x41\x09\x7F"))


def loaded(*words):
    """Returns the answer for 16 bytes of `P`, which are four words, and for the fragment that needs it."""
    return b"fragment P\nsection 0 at 00010000 size 16\n00010000 " + b" ".join(words) + b"\nfragment A\n"


CASES = []

# A library with other bytes at an offset, and its memory.
CASES += [
    Case(name, ["load", "A=needs-p", "P=p"], {"needs-p": NEEDS_P, "p": changed(library, (at, other))}, stdout=loaded(*words))
    for name, library, at, other, words in (
        ("raw data", SPELLED, 0, b"", (b"20FFFFFF", b"FF800102", b"03040000", b"00010000")),
        ("packed data", PACKED, 0, b"", (b"7F7F7F7F", b"7F807F7F", b"7F7F0000", b"00010000")),
        ("a repeat that runs one addition three more times", SPELLED, 180, b"\x40\x00\x90\x02\x80\x00\x80\x00\x80\x00\x80\x00",
         (b"2100FFFF", b"FF800102", b"03050000", b"00010000")),
        # The bytes after the image aren't read.
        ("raw data that is longer than the image", SPELLED, 55, b"\x04", (b"20FFFFFF", b"00010000", b"00000000", b"00010000")),
        # Each program begins at the section's first byte.
        ("two headers for one section", TWICE, 0, b"", (b"2100FFFF", b"FF810102", b"03040000", b"00000000")),
    )
]

# A library with other bytes at an offset, and its error.
CASES += [
    Case(
        f"{error.decode()} at {at}", ["load", "A=needs-p", "P=p"], {"needs-p": NEEDS_P, "p": changed(library, (at, other))},
        stdout=b"refused " + error + b" in P\n", stderr=Begins(HELP[int(error.split()[0])]), status=1,
    )
    for library, at, other, error in (
        (SPELLED, 0, b"j", b"2 BadTag"),
        (SPELLED, 84, b"\x00\x00\x00\x00", b"11 LoaderShort"),
        (PACKED, 59, b"\x02", b"21 Truncated"),
        (PACKED, 96, b"\xA1", b"22 BadOpcode"),
        (SPELLED, 64, b"\x02", b"23 CountTooLarge"),
        (PACKED, 97, b"\x0A", b"24 TooLong"),
        (PACKED, 97, b"\x08", b"25 TooShort"),
        (SPELLED, 180, b"\x4C\x00", b"31 BadOpcode"),
        (SPELLED, 190, b"\xA0\x00", b"32 CutInstruction"),
        (SPELLED, 180, b"\x90\x00", b"33 RepeatTooFar"),
        (SPELLED, 184, b"\x90\x00", b"34 RepeatCuts"),
        (SPELLED, 180, b"\x42\x00\x90\x01\x90\x01", b"35 NestedRepeat"),
        (SPELLED, 180, b"\x80\x00\x80\x00\x80\x00\x80\x00\xB0\xFF\xFF\xFF", b"36 TooManySteps"),
        (SPELLED, 189, b"\x0D", b"37 WordOutside"),
        (SPELLED, 190, b"\x4A\x00", b"38 ImportOutside"),
        (SPELLED, 191, b"\x01", b"39 SectionOutside"),
        (SPELLED, 48, b"\x0F\xFF\x00\x01", b"67 NoRoom"),
        # The first program is run before the second is read.
        (TWICE, 195, b"\x0D\x66\x00\x4C\x00", b"37 WordOutside"),
        (TWICE, 198, b"\x4C\x00", b"31 BadOpcode"),
    )
]


def passes_on(export, version, *libraries):
    """Returns a library with an export that is its first import."""
    return container([Section(total=4)], Loader([*libraries], exports=[(export, 1, -3, 0)]), (version, 0, 0))[0]


# Exports that re-export an import in a cycle. The answer names the import that led into the cycle, with its fragment.
IMPORTS_U = Library(b"P", 1, imports=[(b"u", 1)])
CYCLES = {
    "user": container([], Loader([IMPORTS_U]))[0],
    "own": passes_on(b"u", 1, IMPORTS_U),
    "own-after-a": passes_on(b"u", 1, Library(b"A"), IMPORTS_U),
    "p": passes_on(b"p", 0, Library(b"Q", imports=[(b"q", 1)])),
    "q": passes_on(b"q", 0, Library(b"P", imports=[(b"p", 1)])),
}
CASES += [
    Case(f"a cycle of {' '.join(words)}", ["load", *words], CYCLES, stdout=b"refused 65 ReexportLoop " + where, stderr=Begins(HELP[65]), status=1)
    for words, where in (
        (["A=user", "P=own"], b"in P symbol u\n"),
        (["P=own-after-a", "A=user"], b"in A symbol u\n"),
        (["P=p", "Q=q"], b"in Q symbol p\n"),
    )
]
