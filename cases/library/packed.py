"""Pattern-initialized data: what packed bytes expand to, or where they are refused, and how the sections of scripts are packed."""
import ctypes
import itertools

from data.bare import Section, container

# Packed bytes, and the image that they spell.
IMAGES = [
    ("62 01 02 AA BB 01 02", "AA BB 01 AA BB 02 AA BB"),
    ("82 01 02 05 06", "00 00 05 00 00 06 00 00"),
    ("41 02 7F", "7F 7F 7F"),
    ("00 81 00", "00" * 128),
    ("A0", ""),
    ("", ""),
    # Each opcode with its count in the first byte and as an argument, also 0.
    ("03", "00 00 00"),
    ("00 03 FF", "00 00 00"),
    ("00 00 02", "00 00"),
    ("22 AA BB A0", "AA BB"),
    ("20 02 AA BB", "AA BB"),
    ("20 00 21 CC", "CC"),
    ("42 01 AA BB", "AA BB AA BB"),
    ("40 02 00 AA BB", "AA BB"),
    ("40 00 05 21 DD", "DD"),
    ("61 02 01 AA 01 02", "AA 01 02 AA"),
    ("60 01 01 02 AA 01 02", "AA 01 AA 02 AA"),
    ("62 03 00 AA BB", "AA BB"),
    ("61 00 03 AA", "AA AA AA AA"),
    ("60 00 01 02 07 08", "07 08"),
    ("81 02 01 01 02", "00 01 02 00"),
    ("80 01 01 02 07 08", "00 07 00 08 00"),
    ("82 03 00", "00 00"),
    ("81 00 03", "00 00 00 00"),
    ("80 00 01 02 07 08", "07 08"),
    # The greatest number of parts and of repeats, with empty parts: this takes no time.
    ("60 00 00 8F FF FF FF 7F 21 09", "09"),
    ("80 00 00 8F FF FF FF 7F 21 09", "09"),
    ("40 00 8F FF FF FF 7F 21 09", "09"),
    # Arguments of two and of five bytes, repeats of more than one byte, and several instructions.
    ("41 81 00 7F", "7F" * 129),
    ("00 80 80 80 80 05", "00 00 00 00 00"),
    ("43 03 01 02 03", "01 02 03" * 4),
    ("21 AA 02 41 01 BB", "AA 00 00 BB BB"),
]

# Packed bytes, the image's length, the number of the error, and the offset of its instruction in the packed bytes. For 25 that is their
# end.
REFUSED = [
    ("", 8, 25, 0),
    ("62", 8, 21, 0),
    ("62 01", 8, 21, 0),
    ("62 01 02", 8, 21, 0),
    ("62 01 02 AA", 8, 21, 0),
    ("62 01 02 AA BB", 8, 21, 0),
    ("62 01 02 AA BB 01", 8, 21, 0),
    ("21 05", 2, 25, 2),
    ("A0", 1, 22, 0),
    ("BF", 1, 22, 0),
    ("C0", 1, 22, 0),
    ("21 AA FF", 2, 22, 2),
    # An argument that ends early, has a sixth byte, or needs 33 bits.
    ("20", 1, 21, 0),
    ("20 FF FF FF FF", 1, 21, 0),
    ("20 FF FF FF FF 7F", 1, 23, 0),
    ("20 80 80 80 80 80", 1, 23, 0),
    ("20 90 80 80 80 00", 1, 23, 0),
    ("42", 1, 21, 0),
    ("60 7F 90 80 80 80 00", 1, 23, 0),
    ("60 7F 01", 1, 21, 0),
    # Output that is too long is reported before bytes that are missing.
    ("20 8F FF FF FF 7F", 1, 24, 0),
    ("22 01 02", 1, 24, 0),
    ("22", 1, 24, 0),
    ("22 01", 2, 21, 0),
    ("41 02 7F", 2, 24, 0),
    ("61 01 01 AA 01", 2, 24, 0),
    ("61 01 01 AA", 3, 21, 0),
    ("81 01 01", 3, 21, 0),
    # Just one byte too long or too short.
    ("04", 3, 24, 0),
    ("04", 5, 25, 1),
    # Products and sums of the greatest arguments.
    ("40" + "8F FF FF FF 7F" * 2, 1, 24, 0),
    ("60" + "8F FF FF FF 7F" * 3, 1, 24, 0),
    ("80" + "8F FF FF FF 7F" * 3, 1, 24, 0),
    # An error of an instruction that isn't the first: its offset is in the packed bytes, not in the image.
    ("03 A0", 8, 22, 1),
    ("03 22 AA", 8, 21, 1),
    ("03 02", 4, 24, 1),
    ("03 22 01 02 20 80", 8, 21, 4),
    ("22 01 02 40 FF FF FF FF 7F", 8, 23, 3),
    ("82 01 02 05 06 61", 9, 21, 5),
    ("82 01 02 05 06", 9, 25, 5),
]

# Images, and how they are packed.
PACKED = [
    ("", ""),
    ("00 00 00 01 02 00 00 03", "03 25 01 02 00 00 03"),
    ("00 00", "22 00 00"),
    ("00" * 128, "00 81 00"),
    ("11 22 33 44 00 00 00 08 01 02", "24 11 22 33 44 03 23 08 01 02"),
    # Two zeros are copied, three are a run: between other bytes, at either end, and with one other byte between.
    ("01 00 00 02", "24 01 00 00 02"),
    ("01 00 00 00 02", "21 01 03 21 02"),
    ("00 00 01", "23 00 00 01"),
    ("00 00 00 01", "03 21 01"),
    ("01 00 00", "23 01 00 00"),
    ("01 00 00 00", "21 01 03"),
    ("00 00 01 00 00", "25 00 00 01 00 00"),
    ("00 00 00 01 00 00 00", "03 21 01 03"),
]

# A count as it is in an instruction: in the last five bits of the first byte, or as an argument after it. Between six others the last
# one makes the longest image.
COUNTS = [
    (31, 31, ""),
    (32, 0, "20"),
    (127, 0, "7F"),
    (128, 0, "81 00"),
    (16_383, 0, "FF 7F"),
    (16_384, 0, "81 80 00"),
    (65_536, 0, "84 80 00"),
    (2_097_151, 0, "FF FF 7F"),
    (2_097_152, 0, "81 80 80 00"),
    (16_777_210, 0, "87 FF FF 7A"),
]


def expand(pef, packed, length):
    """The number that pef_expand gives, and the image if that is 0."""
    room = (ctypes.c_uint8 * max(1, length))()
    number = pef.library().pef_expand(packed, len(packed), room, length)
    return (number, bytes(room[:length])) if number == 0 else (number, None)


def place(pef, packed, length):
    """The error of a section with these raw bytes when it is prepared, and where it is."""
    with pef.Context() as context:
        context.add("it", container([Section(packed, length, length, kind=2)]))
        try:
            context.prepare("it")
        except pef.PefError as error:
            return error.number, error.part, error.row, error.field, error.offset
    return None


def sections(pef, images):
    """Sections as they are linked from a script that has these images, and their container."""
    lines = [f"section s{number} pattern process 0 {len(image)}" for number, image in enumerate(images)]
    lines += [f"bytes s{number} {image.hex()}" for number, image in enumerate(images) if image]
    linked = pef.Container(pef.link("\n".join(lines)))
    return linked.sections[: len(images)], linked


def pack(pef, name, image, packed):
    """Checks how an image is packed, and that it is what the packed bytes spell."""
    (section,), linked = sections(pef, [image])
    yield f"packed: {name}", section.raw == packed or section.raw[:64], True
    yield f"packed and expanded: {name}", linked.expand(section) == image, True


def short_images(pef):
    """All images of up to nine bytes with the values 0, 1 and 255."""
    for length in range(10):
        images = [bytes(image) for image in itertools.product((0, 1, 255), repeat=length)]
        wrong = []
        for start in range(0, len(images), 16):
            some = images[start : start + 16]
            found, linked = sections(pef, some)
            wrong += [image for image, section in zip(some, found) if linked.expand(section) != image]
        yield f"packed and expanded: all of {length} bytes", wrong[:3], []


def checks(pef):
    for packed, image in IMAGES:
        packed, image = bytes.fromhex(packed), bytes.fromhex(image)
        yield f"expanded: {packed.hex()}", expand(pef, packed, len(image)), (0, image)
    for packed, length, number, at in REFUSED:
        packed = bytes.fromhex(packed)
        yield f"refused: {packed.hex()} into {length}", expand(pef, packed, length), (number, None)
        # The raw bytes begin after the container header and two section headers, at 96.
        yield f"the place in {packed.hex()} into {length}", place(pef, packed, length), (number, "packed data of section", 0, at, 96 + at)
    for image, packed in PACKED:
        yield from pack(pef, image or "no bytes", bytes.fromhex(image), bytes.fromhex(packed))
    for count, first, argument in COUNTS:
        zeros, seven = bytes([first]) + bytes.fromhex(argument), bytes.fromhex("21 07")
        yield from pack(pef, f"{count} zeros", bytes(count), zeros)
        yield from pack(pef, f"{count} zeros between others", b"\x07" + bytes(count) + b"\x07", seven + zeros + seven)
        block = bytes([0x20 | first]) + bytes.fromhex(argument) + b"\xFF" * count
        yield from pack(pef, f"{count} bytes", b"\xFF" * count, block)
        yield from pack(pef, f"{count} bytes between zeros", bytes(3) + b"\xFF" * count + bytes(3), b"\x03" + block + b"\x03")
    # The longest image, of a byte and three zeros again and again: an instruction for each byte, and one for each run.
    yield from pack(pef, "a byte and three zeros, again and again", b"\x07\0\0\0" * 4_194_304, b"\x21\x07\x03" * 4_194_304)
    yield from short_images(pef)
