/*
 * Finds an export by its name: find FILE NAME prints its number, class, section and value. The status is 1 if no export has
 * the name, or the container is refused.
 */
#include "file.h"

#include <string.h>

int main(int count, char **words)
{
    if (count != 3) {
        fputs("usage: find FILE NAME\n", stderr);
        return 2;
    }
    size_t length;
    pef_size number = 0;
    uint8_t *container = read_file(words[1], &length);
    if (container == NULL) {
        perror(words[1]);
        return 1;
    }
    struct pef_export found = {.name = PEF_NO_BYTES};
    uint32_t answer = pef_export_named(container, length, (const uint8_t *)words[2], strlen(words[2]), &number, &found);
    if (answer == PEF_OK)
        printf("export %lu class %u section %d value %08X\n", (unsigned long)number, found.symbol_class, found.section, found.value);
    else
        print_refusal(words[1], answer, 0);
    free(container);
    return answer == PEF_OK ? 0 : 1;
}
