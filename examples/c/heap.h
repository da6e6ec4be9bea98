/* A heap that can refuse the Nth growth, in place of the three functions over malloc that a library has. */
#ifndef HEAP_H
#define HEAP_H

#include <stdbool.h>
#include <stddef.h>
#include <stdlib.h>

struct block {
    bool ok;
    void *at;
};

static size_t growths, refused_growth, live_blocks;

/* Refuses the growth with this number, counted from 1, from now on; 0 refuses none. */
static inline void refuse_growth(size_t number)
{
    growths = 0;
    refused_growth = number;
}

/* What malloc and realloc do, unless the growth is refused. */
static inline void *grown(void *at, size_t size)
{
    if (++growths == refused_growth)
        return NULL;
    void *moved = realloc(at, size == 0 ? 1 : size);
    live_blocks += at == NULL && moved != NULL;
    return moved;
}

static inline void freed(void *at)
{
    live_blocks -= at != NULL;
    free(at);
}

/* What the native library calls. */

struct block rattle_alloc(size_t size, size_t align)
{
    (void)align;
    void *at = grown(NULL, size);
    return (struct block){at != NULL, at};
}

struct block rattle_realloc(void *at, size_t used, size_t size, size_t align)
{
    (void)used;
    (void)align;
    void *moved = grown(at, size);
    return (struct block){moved != NULL, moved};
}

void rattle_dealloc(void *at)
{
    freed(at);
}

/* What the library from C source calls, if it is compiled with PEF_HOST_MEMORY. */

void *pef_host_malloc(size_t size)
{
    return grown(NULL, size);
}

void *pef_host_realloc(void *at, size_t size)
{
    return grown(at, size);
}

void pef_host_free(void *at)
{
    freed(at);
}

#endif
