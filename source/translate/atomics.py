"""The opcodes of atomics of 32 and 64 bits, all sequentially consistent, and their functions in C in three forms: by the means
of gcc and clang, by C11, and by Windows' functions. {0} is a pointer."""
from .opcode import ATOMIC, Opcode

# For each operation: its place among the codes, its name, what gcc and C11 call it, and what it makes of `old` and x.
CHANGES = [(0, "add", "fetch_add", "old + x"), (1, "sub", "fetch_sub", "old - x"), (2, "and", "fetch_and", "old & x"),
           (3, "or", "fetch_or", "old | x"), (4, "xor", "fetch_xor", "old ^ x"), (5, "xchg", "exchange", "x")]
# Windows has each operation on each machine only by this one.
WINDOWS = {32: ("long", "_InterlockedCompareExchange"), 64: ("__int64", "_InterlockedCompareExchange64")}


def opcodes():
    found = []
    for number, width in enumerate((32, 64)):
        type = f"i{width}"
        found.append(Opcode(ATOMIC << 8 | 0x10 + number, f"{type}.atomic.load", "memory", ("i64",), type,
                            f"atomic_load{width}({{0}})"))
        found.append(Opcode(ATOMIC << 8 | 0x17 + number, f"{type}.atomic.store", "memory", ("i64", type), "",
                            f"atomic_store{width}({{0}}, {{1}})"))
        for place, name, *_ in CHANGES:
            found.append(Opcode(ATOMIC << 8 | 0x1E + 7 * place + number, f"{type}.atomic.rmw.{name}", "memory", ("i64", type),
                                type, f"atomic_{name}{width}({{0}}, {{1}})"))
        found.append(Opcode(ATOMIC << 8 | 0x48 + number, f"{type}.atomic.rmw.cmpxchg", "memory", ("i64", type, type), type,
                            f"atomic_cmpxchg{width}({{0}}, {{1}}, {{2}})"))
    return found


def three(head, gnu, c11, windows):
    return (f"PEF__INLINE {head} {{\n#if PEF__ATOMICS == 1\n    {gnu}\n#elif PEF__ATOMICS == 2\n    {c11}\n#else\n"
            f"    {windows}\n#endif\n}}\n")


def changed(width, name, method, value):
    u = f"u{width}"
    gnu = method if method.startswith("fetch") else "exchange_n"
    again = f"while (atomic_cmpxchg{width}(p, old, {value}) != old);"
    return three(f"{u} atomic_{name}{width}(u8 *p, {u} x)",
                 f"return __atomic_{gnu}(({u} *)(void *)p, x, __ATOMIC_SEQ_CST);",
                 f"return atomic_{method}((_Atomic({u}) *)(void *)p, x);",
                 f"{u} old;\n    do old = atomic_load{width}(p); {again}\n    return old;")


def helpers():
    found = {"atomic_fence": three(
        "void atomic_fence(void)", "__atomic_thread_fence(__ATOMIC_SEQ_CST);", "atomic_thread_fence(memory_order_seq_cst);",
        "volatile long here = 0;\n    _InterlockedCompareExchange(&here, 1, 0);")}
    for width in (32, 64):
        word, compare = WINDOWS[width]
        u, at = f"u{width}", f"(volatile {word} *)(void *)p"
        gnu_at, c11_at = f"({u} *)(void *)p", f"(_Atomic({u}) *)(void *)p"
        found[f"atomic_cmpxchg{width}"] = three(
            f"{u} atomic_cmpxchg{width}(u8 *p, {u} old, {u} x)",
            f"__atomic_compare_exchange_n({gnu_at}, &old, x, 0, __ATOMIC_SEQ_CST, __ATOMIC_SEQ_CST);\n    return old;",
            f"atomic_compare_exchange_strong({c11_at}, &old, x);\n    return old;",
            f"return ({u}){compare}({at}, ({word})x, ({word})old);")
        found[f"atomic_load{width}"] = three(
            f"{u} atomic_load{width}(u8 *p)", f"return __atomic_load_n({gnu_at}, __ATOMIC_SEQ_CST);",
            f"return atomic_load({c11_at});", f"return ({u}){compare}({at}, 0, 0);")
        for _, name, method, value in CHANGES:
            found[f"atomic_{name}{width}"] = changed(width, name, method, value)
        found[f"atomic_store{width}"] = three(
            f"void atomic_store{width}(u8 *p, {u} x)", f"__atomic_store_n({gnu_at}, x, __ATOMIC_SEQ_CST);",
            f"atomic_store({c11_at}, x);", f"atomic_xchg{width}(p, x);")
    return found


OPCODES, HELPERS = opcodes(), helpers()
