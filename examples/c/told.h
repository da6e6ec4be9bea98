/* Everything that a context says of a connection, in one block of bytes, for the programs beside it to compare. A section
 * that finds no room in the block is told by its size. */
#ifndef TOLD_H
#define TOLD_H

#include "../../include/pef.h"

#include <string.h>

enum { TOLD_ROOM = 1 << 20 };

struct told {
    uint8_t bytes[TOLD_ROOM];
    size_t length;
    bool whole;
};

static inline void tell(struct told *told, const void *bytes, size_t length)
{
    if (length > TOLD_ROOM - told->length)
        return;
    if (length != 0)
        memcpy(told->bytes + told->length, bytes, length);
    told->length += length;
}

static inline void tell_number(struct told *told, uint32_t number)
{
    tell(told, &number, sizeof number);
}

static inline void tell_section(struct told *told, const struct pef_context *context, uint32_t connection, size_t fragment, size_t number)
{
    struct pef_fragment_section section = {0};
    size_t written = 0;
    tell_number(told, pef_fragment_section(context, connection, fragment, number, &section));
    tell_number(told, section.address);
    tell_number(told, section.kind);
    tell_number(told, section.share);
    uint32_t answer = pef_fragment_bytes(context, fragment, number, told->bytes + told->length, TOLD_ROOM - told->length, &written);
    told->length += answer == PEF_OK ? written : 0;
    told->whole = told->whole && (answer == PEF_OK || answer == PEF_ROOM_TOO_SMALL) && written == section.size;
    tell(told, &section.size, sizeof section.size);
}

static inline void tell_fragment(struct told *told, const struct pef_context *context, uint32_t connection, size_t fragment)
{
    struct pef_bytes name = PEF_NO_BYTES;
    struct pef_entries entries = {0};
    size_t count = 0;
    tell_number(told, pef_fragment_name(context, fragment, &name));
    tell(told, name.at, name.length);
    tell_number(told, pef_fragment_entries(context, connection, fragment, &entries));
    tell_number(told, entries.has_init ? entries.init : 1);
    tell_number(told, entries.has_main ? entries.main : 1);
    tell_number(told, entries.has_term ? entries.term : 1);
    tell_number(told, pef_fragment_sections(context, fragment, &count));
    for (size_t number = 0; number < count; number++)
        tell_section(told, context, connection, fragment, number);
}

/* Tells everything of a connection. Returns whether all calls answered. */
static inline bool tell_connection(struct told *told, const struct pef_context *context, uint32_t connection)
{
    size_t order[PEF_MAX_FRAGMENTS], count = 0;
    told->length = 0;
    told->whole = pef_init_order(context, connection, order, PEF_MAX_FRAGMENTS, &count) == PEF_OK;
    tell(told, order, count * sizeof order[0]);
    told->whole = told->whole && pef_fragments(context, connection, order, PEF_MAX_FRAGMENTS, &count) == PEF_OK;
    tell(told, order, count * sizeof order[0]);
    for (size_t i = 0; told->whole && i < count; i++)
        tell_fragment(told, context, connection, order[i]);
    return told->whole;
}

static inline bool is_same(const struct told *a, const struct told *b)
{
    return a->length == b->length && memcmp(a->bytes, b->bytes, a->length) == 0;
}

#endif
