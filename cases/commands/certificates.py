"""`pef check` of certificates: valid ones and others, and which texts are certificates. A text that is read is of other sections than the
script has, so it is refused with 52 instead of 51. check.py has the order of the errors, and limits.py the largest certificates."""
from data.refusals import refused
from suite import Case

# --- certificates ---

BAD_REGISTERS = 51

# Fixups of section 0 as `offset:base`, with S for a section and I for an import; the registers; the labels, row after row, with the classes
# of C outside and those of D inside; a program; and whether the certificate is valid.
CERTIFICATES = [
    # programs that are as long as their labels say. A skip that could add the first vector's two words would be shorter
    ("", "", "0", "", True),
    ("0:S0 4:S1 8:S0 12:S1", "0 1", "2 1 2 3 2 3 3 2 3 3 2 3 2 3 3 3 3 3 2 1 2 2 2 2 2 2 2 1 1 1 1 1 1 1 1 1 0 0 0 0 0 0 0 0 0", "4601", True),
    ("4:S0 8:S1 12:S0 16:S1", "0 1", "2 1 2 3 2 3 3 2 3 3 2 3 2 3 3 3 3 3 2 1 2 2 2 2 2 2 2 1 1 1 1 1 1 1 1 1 0 0 0 0 0 0 0 0 0", "80034601", True),
    ("0:S1 1028:S1", "1", "2 3 2 3 1 1 1 1 0 0 0 0", "48003FC1", True),
    ("0:S1 1032:S1", "1", "3 3 3 3 1 1 1 1 0 0 0 0", "420084034200", True),
    ("0:S1 5124:S1", "1", "3 4 3 4 1 1 1 1 0 0 0 0", "48008FFF3FC1", True),
    ("0:S2 8:S2 16:S2", "2", "1 2 1 2 1 2 1 2 1 1 1 1 0 0 0 0", "64024802", True),
    ("4:S2 8:S2 12:S2", "2", "1 1 1 2 1 1 1 2 1 1 1 1 0 0 0 0", "64020043", True),
    ("0:S1 8:S1 12:S0", "0 1", "4 3 4 3 3 4 4 3 4 2 2 2 1 2 2 2 2 2 1 1 1 1 1 1 1 1 1 0 0 0 0 0 0 0 0 0", "480042004000", True),
    ("0:S0 4:S1 1032:S1", "0 1", "3 2 3 4 3 4 4 3 4 3 2 3 3 2 3 3 2 3 1 1 1 1 1 1 1 1 1 0 0 0 0 0 0 0 0 0", "44003FC1", True),
    ("0:S0 4:S1 12:S1", "0 1", "3 2 3 3 2 3 3 2 3 2 1 2 2 1 2 2 1 2 1 1 1 1 1 1 1 1 1 0 0 0 0 0 0 0 0 0", "44004200", True),
    ("0:S0 4:S1 12:S1", "0 1", "3 2 3 3 2 3 3 2 3 2 1 2 2 1 2 2 1 2 1 1 1 1 1 1 1 1 1 0 0 0 0 0 0 0 0 0", "40004801", True),
    ("0:S1 4:S0 8:S1 12:S0", "0 1", "2 3 3 1 2 2 2 3 3 3 2 3 2 3 3 3 3 3 2 2 2 1 2 2 2 2 2 1 1 1 1 1 1 1 1 1 0 0 0 0 0 0 0 0 0", "420046004000", True),
    ("0:I0 4:I1 8:I0 12:I1", "", "3 3 2 1 0", "4A0160004A00", True),
    ("0:I1 4:S0 8:I2", "0", "3 3 3 3 2 2 2 2 1 1 1 1 0 0 0 0", "600140004A00", True),
    ("0:I511 4:I512 8:I600", "", "4 3 2 0", "61FF4A00A4000258", True),
    ("0:S2 4:S2 8:S2", "2", "1 1 1 2 1 1 1 2 1 1 1 1 0 0 0 0", "64024202", True),
    # programs with labels that are lower than the least lengths
    ("0:S1", "1", "0 0 1 1 0 0 0 0", "6601", True),
    ("0:S1", "1", "0 0 1 1 0 0 0 0", "4200", True),
    ("0:S2 4:S2 8:S2", "2", "1 1 1 2 0 0 0 1 1 1 1 1 0 0 0 0", "64024202", True),
    ("5116:S1", "1", "0 0 1 1 0 0 0 0", "8FFF3FC1", True),
    # programs that make one fixup
    ("1020:S1", "1", "1 1 1 1 0 0 0 0", "3FC1", True),
    ("1020:S2", "2", "1 1 1 1 0 0 0 0", "83FB6602", True),
    ("1024:S1", "1", "1 1 1 1 0 0 0 0", "83FF4200", True),
    ("5:S1", "1", "1 1 1 1 0 0 0 0", "80044200", True),
    ("4096:S0", "0", "1 1 1 1 0 0 0 0", "8FFF4000", True),
    ("4097:S0", "0", "1 1 1 1 0 0 0 0", "A00010014000", True),
    ("4097:S1", "1", "1 1 1 1 0 0 0 0", "8C043FC1", True),
    ("5116:S0", "0", "1 1 1 1 0 0 0 0", "A00013FC4000", True),
    ("5120:S1", "1", "1 1 1 1 0 0 0 0", "A00014004200", True),
    ("0:S0", "0", "1 1 1 1 0 0 0 0", "4000", True),
    ("0:S0", "0", "1 1 1 1 0 0 0 0", "6600", True),
    ("0:S1", "1", "1 1 1 1 0 0 0 0", "4200", True),
    ("0:S2", "2", "1 1 1 1 0 0 0 0", "6602", True),
    ("0:I65535", "", "2 0", "A400FFFF", True),
    # programs that make the fixups, but are longer than feasible labels say. The set that a skip needs counts once
    ("0:S1", "1", "1 1 1 1 0 0 0 0", "00004200", False),
    ("4:S2 8:S2 12:S2", "2", "1 1 1 2 1 1 1 2 1 1 1 1 0 0 0 0", "640280034202", False),
    ("4:S0 8:S1 12:S0 16:S1", "0 1", "2 1 2 3 2 3 3 2 3 3 2 3 2 3 3 3 3 3 2 1 2 2 2 2 2 2 2 1 1 1 1 1 1 1 1 1 0 0 0 0 0 0 0 0 0", "A00000044601", False),
    ("0:S1", "1", "1 1 1 1 0 0 0 0", "62014000", False),
    ("1020:S1", "1", "1 1 1 1 0 0 0 0", "83FB4200", False),
    ("4096:S0", "0", "1 1 1 1 0 0 0 0", "A00010004000", False),
    ("5116:S1", "1", "1 1 1 1 0 0 0 0", "A00013FC4200", False),
    ("0:S1 1028:S1", "1", "2 3 2 3 1 1 1 1 0 0 0 0", "420083FF4200", False),
    ("0:S0 4:S1 1032:S1", "0 1", "3 2 3 4 3 4 4 3 4 3 2 3 3 2 3 3 2 3 1 1 1 1 1 1 1 1 1 0 0 0 0 0 0 0 0 0", "460083FF4200", False),
    ("0:S2 4:S2 8:S2", "2", "1 1 1 2 1 1 1 2 1 1 1 1 0 0 0 0", "640364024202", False),
    ("0:S2 4:S2 8:S2", "2", "1 1 1 2 1 1 1 2 1 1 1 1 0 0 0 0", "660266026602", False),
    ("0:S0 4:S1 8:S0 12:S1", "0 1", "2 1 2 3 2 3 3 2 3 3 2 3 2 3 3 3 3 3 2 1 2 2 2 2 2 2 2 1 1 1 1 1 1 1 1 1 0 0 0 0 0 0 0 0 0", "400042004600", False),
    # labels that are not feasible, with programs that are as long as they say, or are least. 2 more than 4294967295 is 1 in 32 bits
    ("", "", "1", "", False),
    ("0:S1", "1", "1 1 1 1 0 1 0 0", "4200", False),
    ("0:S1", "1", "4294967295 4294967295 4294967295 4294967295 4294967295 4294967295 4294967295 4294967295", "4200", False),
    ("5:S1", "1", "4294967295 4294967295 4294967295 4294967295 0 0 0 0", "80044200", False),
    ("0:S1", "1", "1 1 2 2 0 0 0 0", "62014000", False),
    ("0:S1 1028:S1", "1", "3 3 3 3 1 1 1 1 0 0 0 0", "420083FF4200", False),
    ("0:S0 4:S1 1032:S1", "0 1", "3 3 3 4 3 4 4 3 4 3 2 3 3 2 3 3 2 3 1 1 1 1 1 1 1 1 1 0 0 0 0 0 0 0 0 0", "460083FF4200", False),
    ("0:S2 4:S2 8:S2", "2", "1 1 1 3 1 1 1 2 1 1 1 1 0 0 0 0", "660266026602", False),
    ("0:S2 4:S2 8:S2", "2", "0 0 0 2 1 1 1 2 1 1 1 1 0 0 0 0", "64024202", False),
    ("0:S2 4:S2 8:S2", "2", "1 1 1 2 2 1 1 2 1 1 1 1 0 0 0 0", "64024202", False),
    ("0:I0 4:I1", "", "2 1 0", "60006001", False),
    ("0:I0", "", "2 0", "80006000", False),
    ("0:I511 4:I512 8:I600", "", "5 3 2 0", "A40001FF4A00A4000258", False),
    ("1:S1 13:S1", "1", "3 3 3 3 1 1 1 1 0 0 0 0", "8000420080074200", False),
    ("0:S1 8:S1 12:S0", "0 1", "4 4 4 4 4 4 4 4 4 2 2 2 1 2 2 2 2 2 1 1 1 1 1 1 1 1 1 0 0 0 0 0 0 0 0 0", "6601800342004000", False),
    ("0:S0 4:S1 8:S0 12:S1", "0 1", "2 0 2 3 2 3 3 2 3 3 2 3 2 3 3 3 3 3 2 1 2 2 2 2 2 2 2 1 1 1 1 1 1 1 1 1 0 0 0 0 0 0 0 0 0", "4601", False),
    ("0:S0 4:S1 8:S0 12:S1", "0 1", "9 1 2 3 2 3 3 2 3 3 2 3 2 3 3 3 3 3 2 1 2 2 2 2 2 2 2 1 1 1 1 1 1 1 1 1 0 0 0 0 0 0 0 0 0", "4601", False),
    # programs that don't make the fixups, other registers, and other numbers of rows
    ("", "", "0", "4200", False),
    ("0:S0 4:S1 8:S0 12:S1", "0 1", "2 1 2 3 2 3 3 2 3 3 2 3 2 3 3 3 3 3 2 1 2 2 2 2 2 2 2 1 1 1 1 1 1 1 1 1 0 0 0 0 0 0 0 0 0", "", False),
    ("0:S0 4:S1 8:S0 12:S1", "0 1", "2 1 2 3 2 3 3 2 3 3 2 3 2 3 3 3 3 3 2 1 2 2 2 2 2 2 2 1 1 1 1 1 1 1 1 1 0 0 0 0 0 0 0 0 0", "4600", False),
    ("0:S0 4:S1 8:S0 12:S1", "0 1", "2 1 2 3 2 3 3 2 3 3 2 3 2 3 3 3 3 3 2 1 2 2 2 2 2 2 2 1 1 1 1 1 1 1 1 1 0 0 0 0 0 0 0 0 0", "4602", False),
    ("0:S0 4:S1 8:S0 12:S1", "0 1", "2 1 2 3 2 3 3 2 3 3 2 3 2 3 3 3 3 3 2 1 2 2 2 2 2 2 2 1 1 1 1 1 1 1 1 1 0 0 0 0 0 0 0 0 0", "4401", False),
    ("0:S2 4:S2 8:S2", "2", "1 1 1 2 1 1 1 2 1 1 1 1 0 0 0 0", "64024203", False),
    ("0:S2 4:S2 8:S2", "2", "1 1 1 2 1 1 1 2 1 1 1 1 0 0 0 0", "64029000", False),
    ("4:S2 8:S2 12:S2", "2", "1 1 1 2 1 1 1 2 1 1 1 1 0 0 0 0", "64020003", False),
    ("0:S1", "1", "1 1 1 1 0 0 0 0", "0041", False),
    ("0:S1", "", "1 0", "4200", False),
    ("0:S1", "0 1", "1 1 1 1 1 1 1 1 1 0 0 0 0 0 0 0 0 0", "4200", False),
    ("0:S1", "1 1", "1 1 1 1 1 1 1 1 1 0 0 0 0 0 0 0 0 0", "4200", BAD_REGISTERS),
    ("0:S0 4:S1", "1 0", "1 1 1 1 1 1 1 1 1 1 1 1 1 1 1 1 1 1 1 1 1 1 1 1 1 1 1", "4600", BAD_REGISTERS),
    ("0:S1", "1", "1 1 1 1", "4200", False),
    ("0:S1", "1", "1 1 1 1 0 0 0 0 0 0 0 0", "4200", False),
]

# How many words of section 1 in a row and the offset of the first, a program, the least value of the first labels, and whether the
# certificate is valid. A run has up to 512 words, and a skip up to 63.
LONG_RUNS = [
    (512, 0, "43FF", 1, True),
    (512, 0, "420043FE", 1, False),
    (512, 0, "420043FE", 2, False),
    (513, 0, "43FF4200", 2, True),
    (63, 4, "007F", 1, True),
    (64, 4, "007F4200", 1, True),
    (63, 4, "8003423E", 1, False),
    (63, 4, "8003423E", 2, False),
]

SECTIONS = 4


def script(fixups):
    """A script with these fixups of section 0: an offset, a kind and a number each."""
    most = max([int(base[1:]) for _, base in fixups if base[0] == "I"], default=-1)
    lines = ["library l 0 0 -"] + [f"import i{number} data strong" for number in range(most + 1)]
    total = max([offset + 4 for offset, _ in fixups], default=4)
    lines += [f"section s{number} data process 0 {4 if number else total}" for number in range(SECTIONS)]
    lines += [f"fix s0 {offset} {'import' if base[0] == 'I' else 'section'} {base.lower()}" for offset, base in fixups]
    return "\n".join(lines).encode()


def certificates(registers, labels, program):
    """Certificates of version 1: that of section 0, and those of the other sections, which have no fixups."""
    width = (len(registers.split()) + 1) ** 2
    numbers = labels.split()
    rows = [" ".join(numbers[at : at + width]) for at in range(0, len(numbers), width)]
    halfwords = " ".join(program[at : at + 4] for at in range(0, len(program), 4))
    text = f"pefcert 1\nsection 0\nfixups {len(rows) - 1}\nlength {len(program) // 4}\nprogram {halfwords or '-'}\nregisters {registers} *\n".replace("s  *", "s *")
    text += "".join(f"at {number} {row}\n" for number, row in enumerate(rows))
    for number in range(1, SECTIONS):
        text += f"section {number}\nfixups 0\nlength 0\nprogram -\nregisters *\nat 0 0\n"
    return (text + "end\n").encode()


def checked(name, fixups, registers, labels, program, valid):
    files = {"a": script(fixups), "b": certificates(registers, labels, program)}
    if valid == BAD_REGISTERS:
        return Case(name, ["check", "a", "b"], files, **refused(b"51 BadCertificate line 6"))
    printed = b"section 0 " + (b"yes %d\n" % (len(program) // 4) if valid else b"no\n")
    printed += b"".join(b"section %d yes 0\n" % number for number in range(1, SECTIONS))
    return Case(name, ["check", "a", "b"], files, stdout=printed, status=0 if valid else 1)


def of_list(listed, registers, labels, program, valid):
    fixups = [(int(offset), base) for offset, base in (it.split(":") for it in listed.split())]
    return checked(f"{program or 'no program'} for {listed or 'no fixups'} with {labels}", fixups, registers, labels, program, valid)


def of_run(count, start, program, first, valid):
    """The labels are the least lengths, but those of the first word are at least `first`."""
    fixups = [(start + 4 * number, "S1") for number in range(count)]
    labels = f"{first} {first} {first} 2 " + "1 1 1 2 " * (count - 2) + "1 1 1 1 0 0 0 0"
    return checked(f"{program} for {count} words from {start} with {first}", fixups, "1", labels, program, valid)


CASES = [of_list(*row) for row in CERTIFICATES] + [of_run(*row) for row in LONG_RUNS]

# --- texts ---

# Lines after `pefcert 1`, and the number of the line that is refused, or None if the text is read.
TEXTS = [
    ("end\n", None),
    ("", 2),
    ("end", 2),
    ("end\n\n", 3),
    ("end\nend\n", 3),
    ("end\nx", 3),
    ("\nend\n", 2),
    ("End\n", 2),
    ("section 0\n", 3),
    ("section 00\nfixups 0\n", 2),
    ("section  0\nfixups 0\n", 2),
    ("section 0 \nfixups 0\n", 2),
    ("section\nfixups 0\n", 2),
    ("section 0x0\nfixups 0\n", 2),
    ("section 4294967296\nfixups 0\n", 2),
    ("section 4294967295\nfixups 0\n", 4),
    ("section 0\nfixups 65537\n", 3),
    ("section 0\nfixups 65536\n", 4),
    ("section 0\nlength 0\n", 3),
    ("section 0\nfixups 0\nlength 0\n", 5),
    ("section 0\nfixups 0\nlength 0\nprogram\n", 5),
    ("section 0\nfixups 0\nlength 0\nprogram - -\n", 5),
    ("section 0\nfixups 0\nlength 1\nprogram -\n", 5),
    ("section 0\nfixups 0\nlength 0\nprogram 4000\n", 5),
    ("section 0\nfixups 0\nlength 2\nprogram 4000\n", 5),
    ("section 0\nfixups 0\nlength 1\nprogram 400\n", 5),
    ("section 0\nfixups 0\nlength 1\nprogram 40000\n", 5),
    ("section 0\nfixups 0\nlength 1\nprogram 46ab\n", 5),
    ("section 0\nfixups 0\nlength 1\nprogram 4C00\n", 5),
    ("section 0\nfixups 0\nlength 1\nprogram A000\n", 5),
    ("section 0\nfixups 0\nlength 1\nprogram 9000\n", 5),
    ("section 0\nfixups 0\nlength 2\nprogram A000 0000\n", 6),
    ("section 0\nfixups 0\nlength 2\nprogram 4200 9001\n", 6),
    ("section 0\nfixups 0\nlength 0\nprogram -\nregisters\n", 6),
    ("section 0\nfixups 0\nlength 0\nprogram -\nregisters 0 1\n", 6),
    ("section 0\nfixups 0\nlength 0\nprogram -\nregisters * 1\n", 6),
    ("section 0\nfixups 0\nlength 0\nprogram -\nregisters 1 0 *\n", 6),
    ("section 0\nfixups 0\nlength 0\nprogram -\nregisters 1 1 *\n", 6),
    ("section 0\nfixups 0\nlength 0\nprogram -\nregisters 0 1 2 3 4 5 6 7 8 9 10 11 12 13 14 15 16 *\n", 6),
    ("section 0\nfixups 0\nlength 0\nprogram -\nregisters 0 1 2 3 4 5 6 7 8 9 10 11 12 13 14 15 *\n", 7),
    ("section 0\nfixups 0\nlength 0\nprogram -\nregisters *\nend\n", 7),
    ("section 0\nfixups 0\nlength 0\nprogram -\nregisters *\nat 1 0\n", 7),
    ("section 0\nfixups 0\nlength 0\nprogram -\nregisters *\nat 0\n", 7),
    ("section 0\nfixups 0\nlength 0\nprogram -\nregisters *\nat 0 0 0\n", 7),
    ("section 0\nfixups 0\nlength 0\nprogram -\nregisters *\nat 0 0\nat 1 0\n", 8),
    ("section 0\nfixups 1\nlength 0\nprogram -\nregisters *\nat 0 0\nat 0 0\n", 8),
    # ranges
    ("section 0\nfixups 1\nlength 0\nprogram -\nregisters *\nat 0 1 0\n", 7),
]

# Lines after `pefcert 2`.
LIMITS = [
    ("section 0\nfixups 65537\n", 3),
    ("section 0\nfixups 0\nlength 0\nprogram -\nregisters 0 1 2 3 4 5 6 7 8 9 10 11 12 13 14 15 16 *\n", 6),
]

# The same after the lines of a certificate with three fixups, of which the last is line 6.
BEFORE_RANGES = "pefcert 2\nsection 2\nfixups 3\nlength 2\nprogram 6402 4202\nregisters 2 *\n"
RANGES = [
    ("at 0 1 1 1 1 2\nat 2 2 1 1 1 1\nat 3 3 0 0 0 0\nend\n", None),
    ("at 0 3 0 0 0 0\nend\n", None),
    # equal neighbours
    ("at 0 0 1 1 1 2\nat 1 1 1 1 1 2\nat 2 2 1 1 1 1\nat 3 3 0 0 0 0\nend\n", 8),
    ("at 0 2 0 0 0 0\nat 3 3 0 0 0 0\nend\n", 8),
    # equal ranges that aren't neighbours
    ("at 0 0 1 1 1 1\nat 1 2 0 0 0 0\nat 3 3 1 1 1 1\nend\n", None),
    # a range that ends before it begins
    ("at 0 1 1 1 1 2\nat 2 1 1 1 1 1\nat 2 3 0 0 0 0\nend\n", 8),
    # a gap, and an index twice
    ("at 0 1 1 1 1 2\nat 3 3 0 0 0 0\nend\n", 8),
    ("at 0 1 1 1 1 2\nat 1 2 1 1 1 1\nat 3 3 0 0 0 0\nend\n", 8),
    ("at 0 1 1 1 1 2\nat 0 3 1 1 1 1\nend\n", 8),
    # the first range doesn't begin at 0
    ("at 1 3 0 0 0 0\nend\n", 7),
    # the last one ends above the number of fixups, and below it
    ("at 0 4 0 0 0 0\nend\n", 7),
    ("at 0 1 1 1 1 2\nat 2 4 0 0 0 0\nend\n", 8),
    ("at 0 2 0 0 0 0\nend\n", 8),
    ("at 0 2 0 0 0 0\n", 8),
    ("end\n", 7),
    # a range after the last one
    ("at 0 3 0 0 0 0\nat 4 4 1 1 1 1\nend\n", 8),
    # rows of version 1
    ("at 0 1 1 1 2\nat 1 1 1 1 2\nat 2 1 1 1 1\nat 3 0 0 0 0\nend\n", 7),
    # other numbers of labels, and words that are none
    ("at 0 3 0 0 0\nend\n", 7),
    ("at 0 3 0 0 0 0 0\nend\n", 7),
    ("at 0\nend\n", 7),
    ("at\nend\n", 7),
    ("at 0 03 0 0 0 0\nend\n", 7),
    ("at 0  3 0 0 0 0\nend\n", 7),
    ("at 0 4294967296 0 0 0 0\nend\n", 7),
    ("at 0 3 0 0 0 4294967296\nend\n", 7),
    ("at 0 3 0 0 0 4294967295\nend\n", None),
]

# The labels of all rows, and whether they are read. A word that has the digits of the one before, but for its last digit, is read in a way
# of its own.
NEAR = [
    ("24407 24400 24409 24400", True),
    ("10 11 19 10", True),
    # a carry
    ("399 400 399 401", True),
    ("24409 24410 24399 24400", True),
    # shorter and longer numbers
    ("24400 2440 24401 24402", True),
    ("2440 24401 24402 2440", True),
    ("2440 244011 2441 2442", True),
    ("7 8 0 9", True),
    ("100 0 101 0", True),
    ("1234567 1234568 12345670 12345671", True),
    # no digit after the same digits
    ("2440 244 2441 244", True),
    ("2440 244/ 2441 2442", False),
    ("2440 244: 2441 2442", False),
    ("2440 244x 2441 2442", False),
    # leading zeros
    ("24 024 25 26", False),
    ("240 0240 241 242", False),
    ("0 00 1 2", False),
    ("0 01 1 2", False),
    # other bytes after the number
    ("2440 2441\t2442 2443", False),
    ("2440 2441,2442 2443 2444", False),
    ("2440 2441  2442 2443", False),
    ("2440 2441 2442 2443 ", False),
    ("2440 2441! 2442 2443", False),
    # 32 bits
    ("4294967290 4294967295 4294967294 4294967290", True),
    ("4294967295 4294967296 1 1", False),
    ("4294967295 4294967299 1 1", False),
    ("4294967295 42949672950 1 1", False),
]

# Whole texts.
WHOLE = [
    ("", 1),
    ("pefcert 1", 1),
    ("pefcert 3\nend\n", 1),
    ("pefcert 01\nend\n", 1),
    ("pefcert 1 \nend\n", 1),
    ("pefcert 1\r\nend\n", 1),
    ("pefcert 0\nend\n", 1),
    ("pefcert 1\nend\n", None),
    ("pefcert 2\nend\n", None),
]


def read(text, line):
    """A text that is read has no section, as the script, or is of other sections."""
    files = {"a": b"", "b": text.encode()}
    if line is not None:
        return Case(f"line {line} of {text!r}", ["check", "a", "b"], files, **refused(b"51 BadCertificate line %d" % line))
    if "section" in text:
        return Case(f"read: {text!r}", ["check", "a", "b"], files, **refused(b"52 SectionsDiffer"))
    return Case(f"read: {text!r}", ["check", "a", "b"], files)


CASES += [read("pefcert 1\n" + text, line) for text, line in TEXTS]
CASES += [read("pefcert 2\n" + text, line) for text, line in LIMITS]
CASES += [read(BEFORE_RANGES + text, line) for text, line in RANGES]
CASES += [read(f"{BEFORE_RANGES}at 0 3 {labels}\nend\n", None if is_read else 7) for labels, is_read in NEAR]
CASES += [read(text, line) for text, line in WHOLE]
