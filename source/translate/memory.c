/* --- memory --- */

/*
 * All memory is asked for by these three functions, which do what malloc, realloc and free do. To replace them, define PEF_HOST_MEMORY for
 * this file, and the functions in one of yours.
 */
#ifdef PEF_HOST_MEMORY
void *pef_host_malloc(size_t size);
void *pef_host_realloc(void *block, size_t size);
void pef_host_free(void *block);
#else
#define pef_host_malloc malloc
#define pef_host_realloc realloc
#define pef_host_free free
#endif

/* Blocks are aligned to 16 bytes. Where malloc promises less, a block begins after what malloc gave, and the byte before it says how far. */
#if UINTPTR_MAX > 0xFFFFFFFFu
#define SPARE_BYTES 0u
#define NEEDED_DISTANCE(given) ((void)(given), 0u)
#define KEPT_DISTANCE(block) ((void)(block), 0u)
#define KEEP_DISTANCE(block, distance) ((void)(block), (void)(distance))
#else
#define SPARE_BYTES 16u
#define NEEDED_DISTANCE(given) (16u - (u32)((uintptr_t)(given) & 15))
#define KEPT_DISTANCE(block) ((u32)(block)[-1])
#define KEEP_DISTANCE(block, distance) ((void)((block)[-1] = (u8)(distance)))
#endif

/* How many bytes malloc is asked for, or 0 if there can't be a block of this size and alignment. */
static size_t whole_size(u64 size, u64 align)
{
    return size <= SIZE_MAX / 2 && align <= 16 ? (size_t)(size ? size : 1) + SPARE_BYTES : 0;
}

/* Stores whether there is a block, and its address. */
static void give_block(u64 to, u8 *block)
{
    st64(P(to), block != NULL);
    st64(P(to) + 8, A(block));
}

static void x_rattle_alloc(u64 to, u64 size, u64 align)
{
    size_t whole = whole_size(size, align);
    u8 *given = whole ? (u8 *)pef_host_malloc(whole) : NULL;
    u32 distance = NEEDED_DISTANCE(given);
    if (given) KEEP_DISTANCE(given + distance, distance);
    give_block(to, given ? given + distance : NULL);
}

static void x_rattle_dealloc(u64 block) { pef_host_free(P(block) - KEPT_DISTANCE(P(block))); }

/* What was in the block is moved before its distance is written, which may be where some of it was. */
static void x_rattle_realloc(u64 to, u64 block, u64 old_size, u64 size, u64 align)
{
    size_t whole = whole_size(size, align);
    u32 before = KEPT_DISTANCE(P(block));
    u8 *given = whole ? (u8 *)pef_host_realloc(P(block) - before, whole) : NULL;
    u32 after = NEEDED_DISTANCE(given);
    if (given && before != after)
        memmove(given + after, given + before, (size_t)(old_size < size ? old_size : size));
    if (given) KEEP_DISTANCE(given + after, after);
    give_block(to, given ? given + after : NULL);
}
