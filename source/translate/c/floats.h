PEF__INLINE f32 f32_of(u32 x) { f32 y; memcpy(&y, &x, sizeof y); return y; }

PEF__INLINE f64 f64_of(u64 x) { f64 y; memcpy(&y, &x, sizeof y); return y; }

PEF__INLINE u32 f32_bits(f32 x) { u32 y; memcpy(&y, &x, sizeof y); return y; }

PEF__INLINE u64 f64_bits(f64 x) { u64 y; memcpy(&y, &x, sizeof y); return y; }

PEF__INLINE f32 f32_add(f32 a, f32 b) { volatile f32 x = a + b; return x; }

PEF__INLINE f32 f32_sub(f32 a, f32 b) { volatile f32 x = a - b; return x; }

PEF__INLINE f32 f32_mul(f32 a, f32 b) { volatile f32 x = a * b; return x; }

PEF__INLINE f32 f32_div(f32 a, f32 b) { volatile f32 x = a / b; return x; }

PEF__INLINE f64 f64_add(f64 a, f64 b) { volatile f64 x = a + b; return x; }

PEF__INLINE f64 f64_sub(f64 a, f64 b) { volatile f64 x = a - b; return x; }

PEF__INLINE f64 f64_mul(f64 a, f64 b) { volatile f64 x = a * b; return x; }

PEF__INLINE f64 f64_div(f64 a, f64 b) { volatile f64 x = a / b; return x; }

PEF__INLINE f32 f32_abs(f32 x) { return f32_of(f32_bits(x) & 0x7FFFFFFFu); }

PEF__INLINE f32 f32_neg(f32 x) { return f32_of(f32_bits(x) ^ 0x80000000u); }

PEF__INLINE f32 f32_copysign(f32 x, f32 y) { return f32_of((f32_bits(x) & 0x7FFFFFFFu) | (f32_bits(y) & 0x80000000u)); }

PEF__INLINE f64 f64_abs(f64 x) { return f64_of(f64_bits(x) & 0x7FFFFFFFFFFFFFFFull); }

PEF__INLINE f64 f64_neg(f64 x) { return f64_of(f64_bits(x) ^ 0x8000000000000000ull); }

PEF__INLINE f64 f64_copysign(f64 x, f64 y) {
    return f64_of((f64_bits(x) & 0x7FFFFFFFFFFFFFFFull) | (f64_bits(y) & 0x8000000000000000ull));
}

PEF__INLINE f32 f32_min(f32 a, f32 b) {
    if (a != a || b != b) return f32_add(a, b);
    return a == b ? f32_of(f32_bits(a) | f32_bits(b)) : a < b ? a : b;
}

PEF__INLINE f32 f32_max(f32 a, f32 b) {
    if (a != a || b != b) return f32_add(a, b);
    return a == b ? f32_of(f32_bits(a) & f32_bits(b)) : a > b ? a : b;
}

PEF__INLINE f64 f64_min(f64 a, f64 b) {
    if (a != a || b != b) return f64_add(a, b);
    return a == b ? f64_of(f64_bits(a) | f64_bits(b)) : a < b ? a : b;
}

PEF__INLINE f64 f64_max(f64 a, f64 b) {
    if (a != a || b != b) return f64_add(a, b);
    return a == b ? f64_of(f64_bits(a) & f64_bits(b)) : a > b ? a : b;
}

PEF__INLINE u32 i32_s_of_f64(f64 x) {
    return x != x ? 0 : x <= -2147483648.0 ? 0x80000000u : x >= 2147483648.0 ? 0x7FFFFFFFu : (u32)(i32)x;
}

PEF__INLINE u32 i32_u_of_f64(f64 x) { return x != x || x <= 0.0 ? 0 : x >= 4294967296.0 ? 0xFFFFFFFFu : (u32)x; }

PEF__INLINE u64 i64_s_of_f64(f64 x) {
    if (x != x) return 0;
    if (x <= -9223372036854775808.0) return 0x8000000000000000ull;
    return x >= 9223372036854775808.0 ? 0x7FFFFFFFFFFFFFFFull : (u64)(i64)x;
}

PEF__INLINE u64 i64_u_of_f64(f64 x) { return x != x || x <= 0.0 ? 0 : x >= 18446744073709551616.0 ? 0xFFFFFFFFFFFFFFFFull : (u64)x; }

/* Each f32 is an f64, too. */
PEF__INLINE u32 i32_s_of_f32(f32 x) { return i32_s_of_f64((f64)x); }

PEF__INLINE u32 i32_u_of_f32(f32 x) { return i32_u_of_f64((f64)x); }

PEF__INLINE u64 i64_s_of_f32(f32 x) { return i64_s_of_f64((f64)x); }

PEF__INLINE u64 i64_u_of_f32(f32 x) { return i64_u_of_f64((f64)x); }
