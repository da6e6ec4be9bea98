#include <stddef.h>
#include <stdint.h>
#include <stdlib.h>
#include <string.h>

#if defined(__BYTE_ORDER__) && __BYTE_ORDER__ != __ORDER_LITTLE_ENDIAN__
#error "this file is for little-endian machines"
#endif

/* An address is a pointer of this machine, as a number of 64 bits. */
#define i8 int8_t
#define i16 int16_t
#define i32 int32_t
#define i64 int64_t
#define u8 uint8_t
#define u16 uint16_t
#define u32 uint32_t
#define u64 uint64_t
#define f32 float
#define f64 double
#define v128 pef__v128
#define P(address) ((u8 *)(uintptr_t)(address))
#define A(pointer) ((u64)(uintptr_t)(pointer))

/* With PEF_PLAIN_C nothing is used that is one compiler's alone, save for atomics. */
#if defined(__GNUC__) && !defined(PEF_PLAIN_C)
#define PEF__GNU 1
#else
#define PEF__GNU 0
#endif

/* Some functions call others only in the form for one compiler. */
#if defined(__GNUC__)
#define PEF__INLINE static inline __attribute__((unused))
#else
#define PEF__INLINE static inline
#endif

#if defined(__GNUC__)
#define PEF__ALIGNED(bytes) __attribute__((aligned(bytes)))
#elif defined(_MSC_VER)
#define PEF__ALIGNED(bytes) __declspec(align(bytes))
#else
#define PEF__ALIGNED(bytes) _Alignas(bytes)
#endif

/* A function that isn't inlined: compilers warn of a block that isn't theirs where a test keeps it from being freed. */
#if defined(__GNUC__)
#define PEF__APART __attribute__((noinline))
#elif defined(_MSC_VER)
#define PEF__APART __declspec(noinline)
#else
#define PEF__APART
#endif

/* What is never reached ends the program. */
#if defined(__GNUC__)
#define TRAP() __builtin_trap()
#elif defined(_MSC_VER)
#include <intrin.h>
#define TRAP() __fastfail(7)
#else
#define TRAP() abort()
#endif

/* An address in constant data has 8 bytes on every machine. */
#if UINTPTR_MAX > 0xFFFFFFFFu
#define PEF__MEMBER(name) const u8 *name;
#define PEF__ADDRESS(array, offset) ((const u8 *)(array) + (offset))
#else
#define PEF__MEMBER(name) const u8 *name; u32 name##_high;
#define PEF__ADDRESS(array, offset) ((const u8 *)(array) + (offset)), 0
#endif
