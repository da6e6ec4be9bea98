"""Objects that the translation refuses, and what it has to say of each."""
from .writer import Code, Module, signed, unsigned


def of_code(code):
    module = Module()
    module.function(code)
    return module.bytes(is_object=True)


def of_pointer(*parts):
    """A function that does this with the stack pointer, whose symbol comes after its own."""
    code = Code(["i64"])
    for part in parts:
        if part in (0x23, 0x24):
            code.opcode(part).relocated(7, 1, unsigned(0, 5))
        else:
            code.add(part)
    return of_code(code)


def objects():
    """What each is, the object, and words of the error: the function and the opcode among them."""
    constant = b"\x42" + signed(32)
    address = Code().relocated(18, 0, b"\x41" + signed(0, 5)).add(0x1A)
    whole = of_code(Code().get(0).add(0x1A))
    return [
        ("a square root", of_code(Code().add(0x44, bytes(8), 0x9F, 0x1A)), "t0: opcode 0x9f"),
        ("a call by pointer", of_code(Code().get(0).i32(0).add(0x11, 0, 0)), "t0: opcode 0x11"),
        ("if", of_code(Code().i32(0).add(0x04, 0x40, 0x0B)), "t0: opcode 0x4"),
        ("a larger memory", of_code(Code().i64(1).add(0x40, 0, 0x1A)), "t0: opcode 0x40"),
        ("an access of a second memory", of_code(Code().get(0).add(0x29, unsigned(0x40), 1, 0, 0x1A)), "t0: an access of a memory"),
        ("a frame of no fixed size", of_pointer(0x23, b"\x20\0\x7d\x24\0\x1a"[:2], b"\x7d", b"\x1a"), "t0: global.get at byte"),
        ("a stack pointer that is set to something else", of_pointer(constant, 0x24), "t0: global.set at byte"),
        ("two frames", of_pointer(*(0x23, constant, b"\x7d\x1a") * 2), "t0: global.get at byte"),
        ("the address of a function", of_code(address), "a relocation of kind 18"),
        ("an object without its last byte", whole[:-1], "truncated"),
        ("no object", b"\0asm\2\0\0\0", "no object"),
    ]
