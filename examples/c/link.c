/* Links a script: link SCRIPT OUT writes the script's container to OUT, as `pef link` does. */
#include "file.h"

/* Links into a room of its own, which it makes as large as is needed. Returns the library's answer. */
static uint32_t link_script(const uint8_t *script, size_t length, uint8_t **container, pef_size *written, pef_size *line)
{
    size_t room = 65536;
    for (;;) {
        *container = malloc(room);
        if (*container == NULL)
            return PEF_OUT_OF_MEMORY;
        uint32_t answer = pef_link(script, length, *container, room, written, line);
        if (answer == PEF_OK)
            return answer;
        free(*container);
        *container = NULL;
        if (answer != PEF_ROOM_TOO_SMALL)
            return answer;
        room = *written;
    }
}

int main(int count, char **words)
{
    if (count != 3) {
        fputs("usage: link SCRIPT OUT\n", stderr);
        return 2;
    }
    size_t length;
    pef_size written = 0, line = 0;
    uint8_t *script = read_file(words[1], &length);
    if (script == NULL) {
        perror(words[1]);
        return 1;
    }
    uint8_t *container;
    uint32_t answer = link_script(script, length, &container, &written, &line);
    free(script);
    if (answer != PEF_OK) {
        print_refusal(words[1], answer, line);
        return 1;
    }
    bool done = write_file(words[2], container, written);
    free(container);
    if (!done) {
        perror(words[2]);
        return 1;
    }
    printf("linked %lu bytes\n", (unsigned long)written);
    return 0;
}
