"""The opcodes of vectors of 16 bytes, for integers, and their functions in C.

Each function has a form that every compiler takes, lane by lane. What loops use often has a second one by the vector types of gcc
and clang. Lane 0 is at the lowest address.
"""
from .opcode import VECTOR, Opcode

LANES = {"i8x16": (8, 16), "i16x8": (16, 8), "i32x4": (32, 4), "i64x2": (64, 2)}
FIRST = {"i8x16": 96, "i16x8": 128, "i32x4": 160, "i64x2": 192}  # the codes of `abs`
COMPARISONS = [("eq", "=="), ("ne", "!="), ("lt_s", "<"), ("lt_u", "<"), ("gt_s", ">"), ("gt_u", ">"), ("le_s", "<="),
               ("le_u", "<="), ("ge_s", ">="), ("ge_u", ">=")]
BITWISE = [(78, "and", "&"), (80, "or", "|"), (81, "xor", "^")]
# The place after `abs`, the name, and a lane's value; the sum, difference and product of gcc's vectors are the same signs.
ARITHMETIC = [(14, "add", "+"), (17, "sub", "-"), (21, "mul", "*")]
CHOICES = [(22, "min_s", "<"), (23, "min_u", "<"), (24, "max_s", ">"), (25, "max_u", ">")]
SHIFTS = [(11, "shl", "<<"), (12, "shr_s", ">>"), (13, "shr_u", ">>")]


class Table:
    """The opcodes, and the functions that they call."""

    def __init__(self):
        self.opcodes, self.helpers = [], {}

    def add(self, code, name, parameters, result, immediate=""):
        """An opcode that is a call of a function in C, whose name it gives."""
        function = name.replace(".", "_")
        if not function.startswith("v128_"):
            function = f"v128_{function}"
        words = [f"{{{number}}}" for number in range(len(parameters))] + ["{lane}"] * ("lane" in immediate)
        form = f"{function}({', '.join(words)})"
        self.opcodes.append(Opcode(VECTOR << 8 | code, name, immediate, parameters, result, form))
        return function

    def help(self, function, head, plain, gnu=None, where="PEF__VECTORS"):
        """`gnu` is the form by the means of compilers, `where` they have it."""
        if gnu:
            plain = f"#if {where}\n    {gnu}\n#else\n{plain}\n#endif"
        self.helpers[function] = f"PEF__INLINE {head} {{\n{plain}\n}}\n"


def lanes(cast, count, value, arrays="ab", result=None):
    """A body that makes each lane of `a` of the lanes of the vectors that `arrays` names."""
    text = f"    {cast} {', '.join(f'{name}s[{count}]' for name in arrays)};\n    int n;\n"
    text += "".join(f"    memcpy({name}s, &{name}, 16);\n" for name in arrays)
    text += f"    for (n = 0; n < {count}; n++) as[n] = {value};\n"
    return text + "    memcpy(&a, as, 16);\n    return a;"


def signed(name, width):
    return f"{'i' if name.endswith('_s') else 'u'}{width}"


def bitwise(table):
    for code, name, sign in BITWISE:
        function = table.add(code, f"v128.{name}", ("v128", "v128"), "v128")
        table.help(function, f"v128 {function}(v128 a, v128 b)", lanes("u64", 2, f"as[n] {sign} bs[n]"), f"return a {sign} b;")
    table.help(table.add(77, "v128.not", ("v128",), "v128"), "v128 v128_not(v128 a)", lanes("u64", 2, "~as[n]", "a"), "return ~a;")
    table.help(table.add(79, "v128.andnot", ("v128", "v128"), "v128"), "v128 v128_andnot(v128 a, v128 b)",
               lanes("u64", 2, "as[n] & ~bs[n]"), "return a & ~b;")
    table.help(table.add(82, "v128.bitselect", ("v128",) * 3, "v128"), "v128 v128_bitselect(v128 a, v128 b, v128 c)",
               lanes("u64", 2, "(as[n] & cs[n]) | (bs[n] & ~cs[n])", "abc"), "return (a & c) | (b & ~c);")
    table.help(table.add(83, "v128.any_true", ("v128",), "i32"), "u32 v128_any_true(v128 a)",
               "    u64 as[2];\n    memcpy(as, &a, 16);\n    return (as[0] | as[1]) != 0;",
               "return _mm_movemask_epi8(_mm_cmpeq_epi8((__m128i)a, _mm_setzero_si128())) != 0xFFFF;", "PEF__SSE2")


def comparisons(table, shape, first):
    width, count = LANES[shape]
    rows = [row for row in COMPARISONS if shape != "i64x2" or not row[0].endswith("_u")]
    for number, (name, sign) in enumerate(rows):
        type = signed(name, width)
        function = table.add(first + number, f"{shape}.{name}", ("v128", "v128"), "v128")
        value = f"as[n] {sign} bs[n] ? ({type})~({type})0 : 0"
        gnu = f"return (v128)((pef__v128_{type})a {sign} (pef__v128_{type})b);"
        table.help(function, f"v128 {function}(v128 a, v128 b)", lanes(type, count, value), gnu)


def arithmetic(table, shape):
    width, count = LANES[shape]
    type = f"u{width}"
    for place, name, sign in ARITHMETIC:
        if shape == "i8x16" and name == "mul":
            continue
        function = table.add(FIRST[shape] + place, f"{shape}.{name}", ("v128", "v128"), "v128")
        # In 32 bits at least, since a product of 16 bits each is an `int` that may overflow.
        wide = f"({type})((u64)as[n] {sign} bs[n])"
        table.help(function, f"v128 {function}(v128 a, v128 b)", lanes(type, count, wide),
                   f"return (v128)((pef__v128_{type})a {sign} (pef__v128_{type})b);")
    for place, name, sign in CHOICES if shape != "i64x2" else []:
        function = table.add(FIRST[shape] + place, f"{shape}.{name}", ("v128", "v128"), "v128")
        own = signed(name, width)
        table.help(function, f"v128 {function}(v128 a, v128 b)", lanes(own, count, f"as[n] {sign} bs[n] ? as[n] : bs[n]"),
                   f"v128 c = (v128)((pef__v128_{own})a {sign} (pef__v128_{own})b);\n    return (a & c) | (b & ~c);")
    for place, name, value in [(0, "abs", f"as[n] >> {width - 1} ? ({type})(0 - as[n]) : as[n]"),
                               (1, "neg", f"({type})(0 - as[n])")]:
        function = table.add(FIRST[shape] + place, f"{shape}.{name}", ("v128",), "v128")
        table.help(function, f"v128 {function}(v128 a)", lanes(type, count, value, "a"))
    for place, name, sign in SHIFTS:
        function = table.add(FIRST[shape] + place, f"{shape}.{name}", ("v128", "i32"), "v128")
        type = signed(name, width)
        table.help(function, f"v128 {function}(v128 a, u32 by)",
                   lanes(type, count, f"({type})(as[n] {sign} (by & {width - 1}))", "a"),
                   f"return (v128)((pef__v128_{type})a {sign} ({type})(by & {width - 1}));")


def tests(table, shape):
    width, count = LANES[shape]
    type = f"u{width}"
    before = f"    {type} as[{count}];\n    u32 found = 0;\n    int n;\n    memcpy(as, &a, 16);\n    for (n = 0; n < {count}; n++) "
    function = table.add(FIRST[shape] + 3, f"{shape}.all_true", ("v128",), "i32")
    table.help(function, f"u32 {function}(v128 a)", f"{before}found += as[n] != 0;\n    return found == {count};",
               f"return !v128_any_true((v128)((pef__v128_{type})a == (pef__v128_{type}){{0}}));")
    function = table.add(FIRST[shape] + 4, f"{shape}.bitmask", ("v128",), "i32")
    plain = f"{before}found |= (u32)(as[n] >> {width - 1}) << n;\n    return found;"
    gnu = {"i32x4": "return (u32)_mm_movemask_ps((__m128)a);", "i64x2": "return (u32)_mm_movemask_pd((__m128d)a);"}.get(shape)
    if shape == "i8x16":
        gnu = "return (u32)_mm_movemask_epi8((__m128i)a);"
        # The highest bits of eight bytes meet in one byte of the product.
        plain = ("    u64 as[2];\n    memcpy(as, &a, 16);\n"
                 "    return (u32)((as[0] >> 7 & 0x0101010101010101ull) * 0x0102040810204080ull >> 56)\n"
                 "         | (u32)((as[1] >> 7 & 0x0101010101010101ull) * 0x0102040810204080ull >> 56) << 8;")
    table.help(function, f"u32 {function}(v128 a)", plain, gnu, "PEF__SSE2")


def single_lanes(table):
    """Vectors of one number, and a lane read or replaced."""
    code = 21
    for number, (shape, (width, count)) in enumerate(LANES.items()):
        number_type = "i64" if width == 64 else "i32"
        passed, type = f"u{64 if width == 64 else 32}", f"u{width}"
        function = table.add(15 + number, f"{shape}.splat", (number_type,), "v128")
        body = f"    {type} as[{count}];\n    v128 a;\n    int n;\n    for (n = 0; n < {count}; n++) as[n] = ({type})x;\n"
        table.help(function, f"v128 {function}({passed} x)", f"{body}    memcpy(&a, as, 16);\n    return a;",
                   f"{type} y = ({type})x;\n    return (v128)(pef__v128_{type}){{{', '.join(['y'] * count)}}};")
        for end in ("_s", "_u") if width < 32 else ("",):
            function = table.add(code, f"{shape}.extract_lane{end}", ("v128",), number_type, "lane")
            back, own = f"({passed})(i32)" if end == "_s" else "", signed(end, width)
            table.help(function, f"{passed} {function}(v128 a, int n)",
                       f"    {own} as[{count}];\n    memcpy(as, &a, 16);\n    return {back}as[n];",
                       f"return {back}((pef__v128_{own})a)[n];")
            code += 1
        function = table.add(code, f"{shape}.replace_lane", ("v128", number_type), "v128", "lane")
        table.help(function, f"v128 {function}(v128 a, {passed} x, int n)",
                   f"    {type} as[{count}];\n    memcpy(as, &a, 16);\n    as[n] = ({type})x;\n    memcpy(&a, as, 16);\n    return a;",
                   f"pef__v128_{type} as = (pef__v128_{type})a;\n    as[n] = ({type})x;\n    return (v128)as;")
        code += 1


def accesses(table):
    """Loads and stores, of a whole vector or of a lane."""
    table.opcodes += [Opcode(VECTOR << 8 | 0, "v128.load", "memory", ("i64",), "v128", "ld128({0})"),
                      Opcode(VECTOR << 8 | 11, "v128.store", "memory", ("i64", "v128"), "", "st128({0}, {1})")]
    for number, (shape, (width, _)) in enumerate(LANES.items()):
        function = table.add(7 + number, f"v128.load{width}_splat", ("i64",), "v128", "memory")
        table.help(function, f"v128 {function}(const u8 *p)", f"    return v128_{shape}_splat(ld{width}(p));")
        function = table.add(84 + number, f"v128.load{width}_lane", ("i64", "v128"), "v128", "memory and lane")
        table.help(function, f"v128 {function}(const u8 *p, v128 a, int n)",
                   f"    return v128_{shape}_replace_lane(a, ld{width}(p), n);")
        function = table.add(88 + number, f"v128.store{width}_lane", ("i64", "v128"), "", "memory and lane")
        end = "_u" if width < 32 else ""
        table.help(function, f"void {function}(u8 *p, v128 a, int n)",
                   f"    st{width}(p, v128_{shape}_extract_lane{end}(a, n));")
    for code, width in ((92, 32), (93, 64)):
        function = table.add(code, f"v128.load{width}_zero", ("i64",), "v128", "memory")
        table.help(function, f"v128 {function}(const u8 *p)", f"    return v128_of(ld{width}(p), 0);")
    code = 1
    for width, count in ((8, 8), (16, 4), (32, 2)):
        for end in ("_s", "_u"):
            function = table.add(code, f"v128.load{width}x{count}{end}", ("i64",), "v128", "memory")
            own, large = signed(end, width), signed(end, 2 * width)
            table.help(function, f"v128 {function}(const u8 *p)", widened(end, width, count, "ps, p, 8", 0),
                       f"pef__v64_{own} half;\n    memcpy(&half, p, 8);\n"
                       f"    return (v128)__builtin_convertvector(half, pef__v128_{large});", "PEF__CONVERSIONS")
            code += 1


def widened(end, width, count, copied, first):
    """A body that widens `count` lanes."""
    type, wide = signed(end, width), signed(end, 2 * width)
    lanes_copied = count if copied.startswith("ps, p") else 2 * count
    return (f"    {type} ps[{lanes_copied}];\n    {wide} as[{count}];\n    v128 a;\n    int n;\n    memcpy({copied});\n"
            f"    for (n = 0; n < {count}; n++) as[n] = ps[n + {first}];\n    memcpy(&a, as, 16);\n    return a;")


def widths(table):
    """From lanes to wider ones and back."""
    for narrow, wide, place in (("i8x16", "i16x8", 7), ("i16x8", "i32x4", 7), ("i32x4", "i64x2", 7)):
        (width, count), (wide_width, half) = LANES[narrow], LANES[wide]
        for number, name in enumerate(("low_{}_s", "high_{}_s", "low_{}_u", "high_{}_u")):
            name = "extend_" + name.format(narrow)
            function = table.add(FIRST[wide] + place + number, f"{wide}.{name}", ("v128",), "v128")
            body = widened(name[-2:], width, half, "ps, &b, 16", half * ("high" in name))
            own, large = signed(name[-2:], width), signed(name[-2:], wide_width)
            table.help(function, f"v128 {function}(v128 b)", body,
                       f"pef__v64_{own} half;\n    memcpy(&half, (const u8 *)&b + {8 * ('high' in name)}, 8);\n"
                       f"    return (v128)__builtin_convertvector(half, pef__v128_{large});", "PEF__CONVERSIONS")
        if wide == "i64x2":
            continue
        for number, end in enumerate(("_s", "_u")):
            function = table.add(FIRST[narrow] + 5 + number, f"{narrow}.narrow_{wide}{end}", ("v128", "v128"), "v128")
            least, most = (-(1 << width - 1), (1 << width - 1) - 1) if end == "_s" else (0, (1 << width) - 1)
            type = signed(end, width)
            table.help(function, f"v128 {function}(v128 a, v128 b)",
                       f"    i{wide_width} x[{count}];\n    {type} as[{count}];\n    int n;\n"
                       f"    memcpy(x, &a, 16);\n    memcpy(x + {half}, &b, 16);\n    for (n = 0; n < {count}; n++)\n"
                       f"        as[n] = ({type})(x[n] < {least} ? {least} : x[n] > {most} ? {most} : x[n]);\n"
                       "    memcpy(&a, as, 16);\n    return a;")


def mixed(table):
    table.help(table.add(14, "i8x16.swizzle", ("v128", "v128"), "v128"), "v128 v128_i8x16_swizzle(v128 a, v128 b)",
               "    u8 as[16], bs[16];\n    int n;\n    memcpy(as, &a, 16);\n    memcpy(bs, &b, 16);\n"
               "    for (n = 0; n < 16; n++) bs[n] = bs[n] < 16 ? as[bs[n]] : 0;\n    memcpy(&b, bs, 16);\n    return b;")
    table.opcodes.append(Opcode(VECTOR << 8 | 13, "i8x16.shuffle", "16 lanes", ("v128", "v128"), "v128",
                                "v128_shuffle({0}, {1}, {lane})"))
    table.help("v128_shuffle", "v128 v128_shuffle(v128 a, v128 b, v128 which)",
               "    u8 from[32], to[16];\n    int n;\n    memcpy(from, &a, 16);\n    memcpy(from + 16, &b, 16);\n"
               "    memcpy(to, &which, 16);\n    for (n = 0; n < 16; n++) to[n] = from[to[n]];\n    memcpy(&a, to, 16);\n    return a;",
               "return __builtin_shuffle(a, b, which);", "PEF__VECTORS && !defined(__clang__)")


def made():
    table = Table()
    accesses(table)
    mixed(table)
    single_lanes(table)
    for shape, first in (("i8x16", 35), ("i16x8", 45), ("i32x4", 55), ("i64x2", 214)):
        comparisons(table, shape, first)
        arithmetic(table, shape)
        tests(table, shape)
    bitwise(table)
    widths(table)
    return table.opcodes, table.helpers


OPCODES, HELPERS = made()
