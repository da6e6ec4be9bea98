"""A file of the classic Mac OS with three fragments, from the tables of docs/FORMATS.md."""
from suite import changed

# A resource fork of 273 bytes. The data are at 16: a table of fragments of 176 bytes, and a resource `ndrv` 128 of three bytes. The
# table has `Calc` for CFM-68K at 52 and for PowerPC at 100, the 250 bytes from 8 of the data fork, and `Drv` at 148, the resource
# `ndrv` 128. The map is at 203.
FRAGMENT_FORK = changed(
    bytes(273),
    (0, b"\x00\x00\x00\x10\x00\x00\x00\xCB\x00\x00\x00\xBB\x00\x00\x00\x46"),
    (16, b"\x00\x00\x00\xB0"),
    (30, b"\x00\x01"),
    (50, b"\x00\x03"),
    (52, b"m68k"),
    (75, b"\x01"),
    (92, b"\x00\x30\x04Calc"),
    (100, b"pwpc"),
    (123, b"\x01\x00\x00\x00\x08\x00\x00\x00\xFA"),
    (140, b"\x00\x30\x04Calc"),
    (148, b"pwpc"),
    (171, b"\x02ndrv\x00\x00\x00\x80"),
    (188, b"\x00\x30\x03Drv"),
    (196, b"\x00\x00\x00\x03drv"),
    (227, b"\x00\x1C\x00\x46"),
    (231, b"\x00\x01cfrg\x00\x00\x00\x12ndrv\x00\x00\x00\x1E"),
    (249, b"\x00\x00\xFF\xFF\x00\x00\x00\x00\x00\x00\x00\x00"),
    (261, b"\x00\x80\xFF\xFF\x00\x00\x00\xB4\x00\x00\x00\x00"),
)


def fragment_file(container, *changes):
    """Returns a file in MacBinary I of 785 bytes with that resource fork, at 512, and a data fork of 264 bytes, at 128, which has a
    container of up to 250 bytes at 136. Other bytes are then written at some offsets."""
    header = ((1, b"\x04File"), (83, b"\x00\x00\x01\x08\x00\x00\x01\x11"))
    return changed(bytes(785), *header, (136, container), (512, FRAGMENT_FORK), *changes)


def resource_fork(contents):
    """Returns a resource fork with the resource `ndrv` 1: its length is at 16, its bytes follow, and then the map of 50 bytes."""
    size = len(contents)
    header = b"".join(it.to_bytes(4, "big") for it in (16, 20 + size, 4 + size, 50))
    rows = changed(bytes(34), (8, b"\x00\x1C\x00\x32"), (14, b"ndrv\x00\x00\x00\x0A\x00\x01\xFF\xFF"))
    return header + size.to_bytes(4, "big") + contents + header + rows
