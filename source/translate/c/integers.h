PEF__INLINE u32 div32(u32 a, u32 b) { if (!b) TRAP(); return a / b; }

PEF__INLINE u32 rem32(u32 a, u32 b) { if (!b) TRAP(); return a % b; }

PEF__INLINE u64 div64(u64 a, u64 b) { if (!b) TRAP(); return a / b; }

PEF__INLINE u64 rem64(u64 a, u64 b) { if (!b) TRAP(); return a % b; }

PEF__INLINE u32 div32s(u32 a, u32 b) {
    if (!b || (a == 0x80000000u && b == 0xFFFFFFFFu)) TRAP();
    return (u32)((i32)a / (i32)b);
}

PEF__INLINE u32 rem32s(u32 a, u32 b) { if (!b) TRAP(); return b == 0xFFFFFFFFu ? 0 : (u32)((i32)a % (i32)b); }

PEF__INLINE u64 div64s(u64 a, u64 b) {
    if (!b || (a == 0x8000000000000000ull && b == 0xFFFFFFFFFFFFFFFFull)) TRAP();
    return (u64)((i64)a / (i64)b);
}

PEF__INLINE u64 rem64s(u64 a, u64 b) { if (!b) TRAP(); return b == 0xFFFFFFFFFFFFFFFFull ? 0 : (u64)((i64)a % (i64)b); }

PEF__INLINE u32 rotl32(u32 x, u32 n) { return x << (n & 31) | x >> ((0 - n) & 31); }

PEF__INLINE u32 rotr32(u32 x, u32 n) { return x >> (n & 31) | x << ((0 - n) & 31); }

PEF__INLINE u64 rotl64(u64 x, u64 n) { return x << (n & 63) | x >> ((0 - n) & 63); }

PEF__INLINE u64 rotr64(u64 x, u64 n) { return x >> (n & 63) | x << ((0 - n) & 63); }

PEF__INLINE u32 clz32(u32 x) {
#if PEF__GNU
    return x ? (u32)__builtin_clz(x) : 32;
#else
    u32 n = 0;
    if (!x) return 32;
    for (; !(x >> 31); x <<= 1) n++;
    return n;
#endif
}

PEF__INLINE u32 ctz32(u32 x) {
#if PEF__GNU
    return x ? (u32)__builtin_ctz(x) : 32;
#else
    return x ? 31 - clz32(x & (0 - x)) : 32;
#endif
}

PEF__INLINE u64 clz64(u64 x) {
#if PEF__GNU
    return x ? (u64)__builtin_clzll(x) : 64;
#else
    return x >> 32 ? clz32((u32)(x >> 32)) : 32 + clz32((u32)x);
#endif
}

PEF__INLINE u64 ctz64(u64 x) {
#if PEF__GNU
    return x ? (u64)__builtin_ctzll(x) : 64;
#else
    return (u32)x ? ctz32((u32)x) : 32 + ctz32((u32)(x >> 32));
#endif
}

PEF__INLINE u32 popcnt32(u32 x) {
    x -= x >> 1 & 0x55555555u;
    x = (x & 0x33333333u) + (x >> 2 & 0x33333333u);
    return ((x + (x >> 4)) & 0x0F0F0F0Fu) * 0x01010101u >> 24;
}

PEF__INLINE u64 popcnt64(u64 x) { return popcnt32((u32)x) + popcnt32((u32)(x >> 32)); }

/* Numbers of 128 bits, in two halves, the lower one first. */
PEF__INLINE void multiply128(u64 to, u64 a, u64 a_high, u64 b, u64 b_high) {
    u64 high;
#if PEF__GNU && defined(__SIZEOF_INT128__)
    __extension__ typedef unsigned __int128 u128;
    high = (u64)((u128)a * b >> 64);
#else
    u64 a0 = (u32)a, a1 = a >> 32, b0 = (u32)b, b1 = b >> 32, middle = a1 * b0 + (a0 * b0 >> 32);
    high = a1 * b1 + (middle >> 32) + ((a0 * b1 + (u32)middle) >> 32);
#endif
    st64(P(to), a * b);
    st64(P(to) + 8, high + a * b_high + a_high * b);
}

PEF__INLINE void shift_left128(u64 to, u64 low, u64 high, u32 by) {
    u32 n = by & 63;
    st64(P(to), by & 64 ? 0 : low << n);
    st64(P(to) + 8, by & 64 ? low << n : n ? high << n | low >> (64 - n) : high);
}

PEF__INLINE void shift_right128(u64 to, u64 low, u64 high, u32 by) {
    u32 n = by & 63;
    st64(P(to), by & 64 ? high >> n : n ? low >> n | high << (64 - n) : low);
    st64(P(to) + 8, by & 64 ? 0 : high >> n);
}
