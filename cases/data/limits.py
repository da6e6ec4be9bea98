"""Lines of scripts that have as much as a script may have."""

# The most that a script may have of each part, and the most fixups of a section.
LIBRARIES, IMPORTS, EXPORTS, SECTIONS, FIXUPS = 4096, 65_536, 16_383, 16, 65_536

# Sections whose fixups are by all of them in turn, at every other word, which takes longest to link.
IN_TURN_SECTIONS, IN_TURN_FIXUPS = 8, 16_384
# How many halfwords the shortest program of such a section has: one for each fixup, and one for each of the words between two, less
# 2,048. That many fixups are by section 1, which is section D at the start, so they are made by an instruction that also passes a
# word. To set section D anew takes a halfword and saves no more, since the next fixup by the same section is eight fixups ahead.
IN_TURN_LENGTH = IN_TURN_FIXUPS + IN_TURN_FIXUPS - 1 - IN_TURN_FIXUPS // IN_TURN_SECTIONS


def sections(count, total):
    """Returns the lines of sections s0, s1 and so on."""
    return b"".join(b"section s%d data process 4 %d\n" % (section, total) for section in range(count))


def fixups(count, step, *bases):
    """Returns the lines of fixups, this many bytes apart, by the bases in turn. The section is `@`."""
    return b"".join(b"fix @ %d %s\n" % (step * number, bases[number % len(bases)]) for number in range(count))


def of_sections(lines, numbers):
    """Returns lines once for each of some sections."""
    return b"".join(lines.replace(b"@", b"s%d" % number) for number in numbers)


IN_TURN = fixups(IN_TURN_FIXUPS, 8, *(b"section s%d" % section for section in range(IN_TURN_SECTIONS)))
