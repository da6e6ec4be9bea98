"""What a module asks of its machine: the C function for each name that it imports.

The program's are in pef_host.c. They take and give numbers, as the module calls them: `uint32_t`, and `uint64_t` for addresses and
lengths. memory.c is written into each module that allocates.
"""
from .errors import Unknown

HOST = ("rattle_arg", "rattle_errno", "rattle_set_errno", "open", "read", "write", "close", "statx", "rattle_open_dir_at", "getdents64", "__sysv_signal")
MEMORY = ("rattle_alloc", "rattle_realloc", "rattle_dealloc")
# What compilers have for numbers of 128 bits, and this translation in c/integers.h.
WIDE = {"__multi3": "multiply128", "__ashlti3": "shift_left128", "__lshrti3": "shift_right128"}


def c_function(name):
    if name in HOST:
        return f"pef_host_{name}"
    if name in MEMORY:
        return f"x_{name}"
    if name in WIDE:
        return WIDE[name]
    raise Unknown(f"the imported function {name}")
