/* Vectors of 16 bytes: those of the compiler if it has them, and they are no slower than bytes. */
#if PEF__GNU && !(defined(__i386__) && !defined(__SSE2__)) && !(defined(__arm__) && !defined(__ARM_NEON))
#define PEF__VECTORS 1
typedef u8 v128 __attribute__((vector_size(16)));
typedef i8 pef__v128_i8 __attribute__((vector_size(16)));
typedef u8 pef__v128_u8 __attribute__((vector_size(16)));
typedef i16 pef__v128_i16 __attribute__((vector_size(16)));
typedef u16 pef__v128_u16 __attribute__((vector_size(16)));
typedef i32 pef__v128_i32 __attribute__((vector_size(16)));
typedef u32 pef__v128_u32 __attribute__((vector_size(16)));
typedef i64 pef__v128_i64 __attribute__((vector_size(16)));
typedef u64 pef__v128_u64 __attribute__((vector_size(16)));
typedef i8 pef__v64_i8 __attribute__((vector_size(8)));
typedef u8 pef__v64_u8 __attribute__((vector_size(8)));
typedef i16 pef__v64_i16 __attribute__((vector_size(8)));
typedef u16 pef__v64_u16 __attribute__((vector_size(8)));
typedef i32 pef__v64_i32 __attribute__((vector_size(8)));
typedef u32 pef__v64_u32 __attribute__((vector_size(8)));
#else
#define PEF__VECTORS 0
typedef struct { u64 halves[2]; } v128;
#endif
#if PEF__VECTORS && defined(__SSE2__)
#include <emmintrin.h>
#define PEF__SSE2 1
#else
#define PEF__SSE2 0
#endif
#if PEF__VECTORS && (defined(__clang__) || __GNUC__ >= 9)
#define PEF__CONVERSIONS 1
#else
#define PEF__CONVERSIONS 0
#endif
