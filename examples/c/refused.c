/*
 * Refuses each growth in turn: refused SCRIPT links the script, makes its certificates, lists its container at once and in parts, and
 * finds the notes on that with bytes after it that need memory, once for each growth that these calls ask for. The call has to return PEF_OUT_OF_MEMORY and to write nothing; or, where it can do without the growth, to
 * return what it returns with memory. No block is left behind, and the same call works when it is made again.
 */
#include "file.h"
#include "heap.h"

#include <string.h>

enum { ROOM = 1 << 20 };

/* One of the calls, the bytes that it takes, and what it writes when it has memory. */
enum kind { LINK, DISTANCES, LIST, PARTS, REPORT, EXCERPT, NOTES };

struct trial {
    const char *name;
    enum kind kind;
    const uint8_t *bytes;
    size_t length;
    uint8_t *wanted;
    size_t wanted_length;
};

static uint8_t room[ROOM];

/* Finds notes, and writes their numbers as bytes. */
static uint32_t find_notes(const uint8_t *bytes, size_t length, uint8_t *out, size_t *written)
{
    static struct pef_finding rows[64];
    uint32_t answer = pef_more_notes(bytes, length, 0, rows, 64, written);
    for (size_t i = 0; answer == PEF_OK && i < *written; i++)
        out[i] = (uint8_t)rows[i].number;
    return answer;
}

/* Reads a listing in parts of 100 bytes. A part that needs memory which isn't there is read once more. */
static uint32_t list_in_parts(const uint8_t *bytes, size_t length, uint8_t *out, size_t *written)
{
    struct pef_listing listing = PEF_NO_LISTING;
    size_t all = 0, part = 100;
    uint32_t answer = pef_list_open(&listing, bytes, length);
    while (answer == PEF_OK && part == 100) {
        answer = pef_list_next(&listing, out + all, 100, &part);
        if (answer == PEF_OUT_OF_MEMORY)
            answer = pef_list_next(&listing, out + all, 100, &part);
        all += part;
    }
    if (answer == PEF_OK)
        *written = all;
    pef_list_free(&listing);
    return answer;
}

/* Reads the object of a container. */
static uint32_t report_container(const uint8_t *bytes, size_t length, uint8_t *out, size_t *written)
{
    struct pef_report report = PEF_NO_REPORT;
    uint32_t answer = pef_report_open_container(&report, bytes, length);
    if (answer == PEF_OK)
        answer = pef_report_next(&report, out, ROOM, written);
    pef_report_free(&report);
    return answer;
}

/* Reads the beginning of the object of a container in a file, by which a want of memory is reported, and not shown as its error. */
static uint32_t report_excerpt(const uint8_t *bytes, size_t length, uint8_t *out, size_t *written)
{
    struct pef_report report = PEF_NO_REPORT;
    struct pef_found_container found;
    uint32_t answer = pef_first_container(bytes, length, &found);
    if (answer == PEF_OK)
        answer = pef_report_open_excerpt(&report, bytes, length, &found, 10);
    if (answer == PEF_OK)
        answer = pef_report_next(&report, out, ROOM, written);
    pef_report_free(&report);
    return answer;
}

static uint32_t call(const struct trial *trial, uint8_t *out, size_t *written)
{
    size_t line;
    switch (trial->kind) {
    case LINK:
        return pef_link(trial->bytes, trial->length, out, ROOM, written, &line);
    case DISTANCES:
        return pef_distances(trial->bytes, trial->length, out, ROOM, written, &line);
    case LIST:
        return pef_list(trial->bytes, trial->length, out, ROOM, written);
    case PARTS:
        return list_in_parts(trial->bytes, trial->length, out, written);
    case REPORT:
        return report_container(trial->bytes, trial->length, out, written);
    case EXCERPT:
        return report_excerpt(trial->bytes, trial->length, out, written);
    default:
        return find_notes(trial->bytes, trial->length, out, written);
    }
}

static bool is_untouched(size_t written)
{
    for (size_t i = 0; i < ROOM; i++)
        if (room[i] != 0x5a)
            return false;
    return written == 77;
}

/* Makes the call with one growth refused, or none for 0, and returns whether its answer is right. */
static bool is_right(const struct trial *trial, size_t refused, bool *lacked)
{
    size_t written = 77;
    memset(room, 0x5a, ROOM);
    refuse_growth(refused);
    uint32_t answer = call(trial, room, &written);
    *lacked = answer == PEF_OUT_OF_MEMORY;
    if (live_blocks != 0)
        return false;
    if (*lacked)
        return refused != 0 && is_untouched(written);
    return answer == PEF_OK && written == trial->wanted_length && memcmp(room, trial->wanted, written) == 0;
}

/* Refuses each growth of the call in turn. Returns whether all answers are right. */
static bool sweep(struct trial *trial)
{
    if (call(trial, trial->wanted, &trial->wanted_length) != PEF_OK)
        return false;
    size_t lacking = 0, number = 0;
    bool was_refused = true, lacked, again;
    while (was_refused) {
        number++;
        if (!is_right(trial, number, &lacked))
            break;
        was_refused = growths >= number;
        lacking += lacked;
        if (!is_right(trial, 0, &again))
            break;
    }
    if (was_refused) {
        fprintf(stderr, "%s: growth %zu: wrong, with %zu blocks left\n", trial->name, number, live_blocks);
        return false;
    }
    printf("%s: %zu growths, %zu of them refused by 99\n", trial->name, number - 1, lacking);
    return lacking != 0;
}

int main(int count, char **words)
{
    static uint8_t container[ROOM], certificates[ROOM], lines[ROOM], parts[ROOM], object[ROOM], beginning[ROOM], numbers[ROOM];
    if (count != 2) {
        fputs("usage: refused SCRIPT\n", stderr);
        return 2;
    }
    struct trial link = {.name = "pef_link", .kind = LINK, .wanted = container};
    struct trial distances = {.name = "pef_distances", .kind = DISTANCES, .wanted = certificates};
    struct trial list = {.name = "pef_list", .kind = LIST, .wanted = lines};
    struct trial list_parts = {.name = "pef_list_open, pef_list_next", .kind = PARTS, .wanted = parts};
    struct trial report = {.name = "pef_report_open_container", .kind = REPORT, .wanted = object};
    struct trial excerpt = {.name = "pef_report_open_excerpt", .kind = EXCERPT, .wanted = beginning};
    struct trial notes = {.name = "pef_more_notes", .kind = NOTES, .wanted = numbers};
    uint8_t *script = read_file(words[1], &link.length);
    if (script == NULL) {
        perror(words[1]);
        return 1;
    }
    link.bytes = distances.bytes = script;
    distances.length = link.length;
    bool right = sweep(&link) && sweep(&distances);
    free(script);
    list.bytes = container;
    list.length = link.wanted_length;
    list_parts.bytes = report.bytes = excerpt.bytes = container;
    list_parts.length = report.length = excerpt.length = list.length;
    right = right && sweep(&list) && sweep(&list_parts) && sweep(&report) && sweep(&excerpt);
    right = right && list_parts.wanted_length == list.wanted_length && memcmp(parts, lines, list.wanted_length) == 0;
    memset(container + link.wanted_length, 1, 6);
    notes.bytes = container;
    notes.length = link.wanted_length + 6;
    return right && sweep(&notes) && notes.wanted_length == 1 && numbers[0] == PEF_NOTE_TRAILING_BYTES ? 0 : 1;
}
