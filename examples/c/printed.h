/* Names and memory as `pef load` prints them, for the programs beside it. */
#ifndef PRINTED_H
#define PRINTED_H

#include "files.h"

/* Prints a name, with each byte that isn't printable and each % as % and two digits. */
static inline void print_name(struct pef_bytes name)
{
    for (size_t i = 0; i < name.length; i++)
        printf(name.at[i] > 0x20 && name.at[i] < 0x7f && name.at[i] != '%' ? "%c" : "%%%02X", name.at[i]);
}

/* Prints the bytes of a section with their addresses, sixteen in a line, in groups of four. */
static inline void print_memory(size_t number, uint32_t address, const uint8_t *bytes, size_t length)
{
    printf("section %zu at %08X size %zu\n", number, (unsigned)address, length);
    for (size_t i = 0; i < length; i++) {
        if (i % 16 == 0)
            printf("%08X", (unsigned)(address + i));
        printf(i % 4 == 0 ? " %02X" : "%02X", bytes[i]);
        if (i % 16 == 15 || i + 1 == length)
            putchar('\n');
    }
}

#endif
