/* Atomics: those of gcc and clang, of C11, or of Windows. */
#if PEF__GNU
#define PEF__ATOMICS 1
#elif defined(_WIN32)
#define PEF__ATOMICS 3
#include <intrin.h>
#elif defined(__STDC_VERSION__) && __STDC_VERSION__ >= 201112L && !defined(__STDC_NO_ATOMICS__)
#define PEF__ATOMICS 2
#include <stdatomic.h>
#elif defined(__GNUC__)
#define PEF__ATOMICS 1
#else
#error "this compiler has no atomics that are known here"
#endif
