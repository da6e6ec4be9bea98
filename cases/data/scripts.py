"""Scripts that several tables use, with what is printed of them."""

# One section with two fixups by its own address.
EXAMPLE = b"section d data process 4 16\nbytes d 11223344000000080102\nfix d 4 section d\nfix d 12 section d\n"
EXAMPLE_SHOWN = b"fragment it\nsection 0 at 00010000 size 16\n00010000 11223344 00010008 01020000 00010000\n"
EXAMPLE_LINKED = b"linked 192 bytes\nsection 0 length 3\n"

# Code, and data with two transition vectors.
VECTORS = b"""versions 1 0 0
section code code global 4 8
section data data process 4 16
bytes code 0011223344556677
bytes data 00000000000000000000000400000000
tvector data 0 code data
tvector data 8 code data
export go tvector data 0
main data 0
"""
# Its container is the one with the shortest program, of which there is one.
VECTORS_LINKED = b"linked 250 bytes\nsection 0 length 0\nsection 1 length 1\n"
# Certificates for its sections.
VECTORS_CERTIFIED = b"""pefcert 2
section 0
fixups 0
length 0
program -
registers *
at 0 0 0
section 1
fixups 4
length 1
program 4601
registers 0 1 *
at 0 0 2 1 2 3 2 3 3 2 3
at 1 1 3 2 3 2 3 3 3 3 3
at 2 2 2 1 2 2 2 2 2 2 2
at 3 3 1 1 1 1 1 1 1 1 1
at 4 4 0 0 0 0 0 0 0 0 0
end
"""

# A library with one export.
LIBRARY = b"versions 1 0 0\nsection l data process 4 4\nbytes l 0000002A\nexport v data l 0\n"
# A fragment that needs that library by the name `L`: its word becomes the address of the export.
USER = b"library L 1 0 -\nimport v data strong\nsection a data process 4 4\nfix a 0 import v\n"
