/* Reading and writing whole files, and telling refusals, for the programs beside it. */
#ifndef FILE_H
#define FILE_H

#include "../../include/pef.h"

#include <stdio.h>
#include <stdlib.h>

/* Reads a whole file, or returns NULL. The caller frees what is returned. It is never NULL for an empty file. */
static inline uint8_t *read_file(const char *path, size_t *length)
{
    FILE *file = fopen(path, "rb");
    if (file == NULL)
        return NULL;
    size_t room = 65536, used = 0;
    uint8_t *bytes = malloc(room);
    while (bytes != NULL) {
        used += fread(bytes + used, 1, room - used, file);
        if (used < room)
            break;
        room *= 2;
        uint8_t *larger = realloc(bytes, room);
        if (larger == NULL)
            free(bytes);
        bytes = larger;
    }
    if (bytes != NULL && ferror(file)) {
        free(bytes);
        bytes = NULL;
    }
    fclose(file);
    *length = used;
    return bytes;
}

/* Writes a whole file. Returns whether it is written. */
static inline bool write_file(const char *path, const uint8_t *bytes, size_t length)
{
    FILE *file = fopen(path, "wb");
    if (file == NULL)
        return false;
    bool written = fwrite(bytes, 1, length, file) == length;
    return fclose(file) == 0 && written;
}

/* Tells a refusal by its number and its name, and by its line unless that is 0. */
static inline void print_refusal(const char *path, uint32_t number, size_t line)
{
    struct pef_bytes name = PEF_NO_BYTES;
    pef_name(number, &name);
    fprintf(stderr, "%s: refused %u %.*s", path, (unsigned)number, (int)name.length, (const char *)name.at);
    if (line != 0)
        fprintf(stderr, " line %zu", line);
    fputc('\n', stderr);
}

#endif
