/*
 * Lists a container: list FILE prints the lines that `pef list` prints. list FILE BYTES prints them in parts of so many
 * bytes.
 */
#include "file.h"

/* Prints the lines at once. */
static uint32_t list_at_once(const uint8_t *container, size_t length)
{
    /* Mostly enough, so that the lines are made only once. */
    size_t room = 65536 + 16 * length;
    pef_size written = 0;
    uint8_t *lines = malloc(room);
    uint32_t answer = lines == NULL ? PEF_OUT_OF_MEMORY : pef_list(container, length, lines, room, &written);
    if (answer == PEF_ROOM_TOO_SMALL) {
        free(lines);
        lines = malloc(written);
        answer = lines == NULL ? PEF_OUT_OF_MEMORY : pef_list(container, length, lines, written, &written);
    }
    if (answer == PEF_OK)
        fwrite(lines, 1, written, stdout);
    free(lines);
    return answer;
}

/* Prints the lines in parts, each of which is made once. */
static uint32_t list_in_parts(const uint8_t *container, size_t length, size_t room)
{
    struct pef_listing listing = PEF_NO_LISTING;
    pef_size written = room;
    uint8_t *part = malloc(room);
    uint32_t answer = part == NULL ? PEF_OUT_OF_MEMORY : pef_list_open(&listing, container, length);
    while (answer == PEF_OK && written == room) {
        answer = pef_list_next(&listing, part, room, &written);
        if (answer == PEF_OK)
            fwrite(part, 1, written, stdout);
    }
    pef_list_free(&listing);
    free(part);
    return answer;
}

int main(int count, char **words)
{
    size_t room = count == 3 ? strtoull(words[2], NULL, 10) : 0;
    if (count < 2 || count > 3 || (count == 3 && room == 0)) {
        fputs("usage: list FILE [BYTES]\n", stderr);
        return 2;
    }
    size_t length;
    uint8_t *container = read_file(words[1], &length);
    if (container == NULL) {
        perror(words[1]);
        return 1;
    }
    uint32_t answer = room == 0 ? list_at_once(container, length) : list_in_parts(container, length, room);
    free(container);
    if (answer != PEF_OK)
        print_refusal(words[1], answer, 0);
    if (fflush(stdout) != 0 || ferror(stdout)) {
        perror("standard output");
        return 1;
    }
    return answer == PEF_OK ? 0 : 1;
}
