PEF__INLINE u32 ld8(const u8 *p) { return *p; }

PEF__INLINE u32 ld16(const u8 *p) { u16 x; memcpy(&x, p, sizeof x); return x; }

PEF__INLINE u32 ld32(const u8 *p) { u32 x; memcpy(&x, p, sizeof x); return x; }

PEF__INLINE u64 ld64(const u8 *p) { u64 x; memcpy(&x, p, sizeof x); return x; }

PEF__INLINE f32 ldf32(const u8 *p) { f32 x; memcpy(&x, p, sizeof x); return x; }

PEF__INLINE f64 ldf64(const u8 *p) { f64 x; memcpy(&x, p, sizeof x); return x; }

PEF__INLINE v128 ld128(const u8 *p) { v128 x; memcpy(&x, p, sizeof x); return x; }

PEF__INLINE void st8(u8 *p, u32 x) { *p = (u8)x; }

PEF__INLINE void st16(u8 *p, u32 x) { u16 y = (u16)x; memcpy(p, &y, sizeof y); }

PEF__INLINE void st32(u8 *p, u32 x) { memcpy(p, &x, sizeof x); }

PEF__INLINE void st64(u8 *p, u64 x) { memcpy(p, &x, sizeof x); }

PEF__INLINE void stf32(u8 *p, f32 x) { memcpy(p, &x, sizeof x); }

PEF__INLINE void stf64(u8 *p, f64 x) { memcpy(p, &x, sizeof x); }

PEF__INLINE void st128(u8 *p, v128 x) { memcpy(p, &x, sizeof x); }

PEF__INLINE void move(u8 *to, const u8 *from, u64 count) { if (count) memmove(to, from, (size_t)count); }

PEF__INLINE void fill(u8 *to, u32 byte, u64 count) { if (count) memset(to, (int)(byte & 255), (size_t)count); }

PEF__INLINE v128 v128_of(u64 low, u64 high) {
    u64 halves[2];
    v128 x;
    halves[0] = low;
    halves[1] = high;
    memcpy(&x, halves, sizeof x);
    return x;
}
