/*
 * Lists damaged containers: damaged FILE cuts the container at every length, and turns each of its bytes in three ways.
 * Every answer has to be PEF_OK or a refusal that has a name. Each container lies in a block of its own length, so that an
 * address sanitizer sees a read past its end.
 */
#include "file.h"

#include <string.h>

enum { ROOM = 1 << 20 };

static uint8_t room[ROOM];

/* Lists a copy of a container with one byte turned. Returns whether the answer has a name. */
static bool is_answered(const uint8_t *bytes, size_t length, size_t at, uint8_t turned)
{
    uint8_t *copy = malloc(length == 0 ? 1 : length);
    if (copy == NULL)
        return false;
    memcpy(copy, bytes, length);
    if (at < length)
        copy[at] ^= turned;
    size_t written = 0;
    struct pef_bytes name = PEF_NO_BYTES;
    uint32_t answer = pef_list(copy, length, room, ROOM, &written);
    free(copy);
    if (answer == PEF_OK || answer == PEF_ROOM_TOO_SMALL)
        return answer == PEF_OK ? written <= ROOM : written > ROOM;
    return answer < 40 && pef_name(answer, &name) == PEF_OK && name.length != 0;
}

int main(int count, char **words)
{
    if (count != 2) {
        fputs("usage: damaged FILE\n", stderr);
        return 2;
    }
    size_t length, tried = 0, wrong = 0;
    uint8_t *bytes = read_file(words[1], &length);
    if (bytes == NULL) {
        perror(words[1]);
        return 1;
    }
    static const uint8_t turns[] = {0x01, 0x80, 0xff};
    for (size_t at = 0; at < length; at++) {
        wrong += !is_answered(bytes, at, at, 0);
        for (size_t i = 0; i < sizeof turns; i++)
            wrong += !is_answered(bytes, length, at, turns[i]);
        tried += 1 + sizeof turns;
    }
    free(bytes);
    printf("%zu tried, %zu wrong\n", tried, wrong);
    return wrong == 0 ? 0 : 1;
}
