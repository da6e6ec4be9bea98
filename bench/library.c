/* Works over the library: `library parts FILE` prints the lines of a container part by part, `library headers COUNT FILE` reads
 * the header of a container again and again, and `library contexts COUNT` opens contexts and frees them. */
#include <stdio.h>
#include <stdlib.h>
#include <string.h>

#include "../include/pef.h"

/* How many bytes of lines each call of `parts` asks for. */
#define PART ((size_t)1 << 16)

struct file {
    uint8_t *bytes;
    size_t length;
};

static bool read_file(const char *path, struct file *read) {
    FILE *file = fopen(path, "rb");
    if (!file || fseek(file, 0, SEEK_END) != 0)
        return false;
    read->length = (size_t)ftell(file);
    read->bytes = malloc(read->length);
    rewind(file);
    return read->bytes && fread(read->bytes, 1, read->length, file) == read->length && fclose(file) == 0;
}

/* A part that is shorter than the buffer is the last one. */
static bool parts(const struct file *file) {
    static uint8_t buffer[PART];
    struct pef_listing listing = PEF_NO_LISTING;
    bool is_read = pef_list_open(&listing, file->bytes, file->length) == PEF_OK;
    size_t written = PART;
    while (is_read && written == PART)
        is_read = pef_list_next(&listing, buffer, PART, &written) == PEF_OK && fwrite(buffer, 1, written, stdout) == written;
    pef_list_free(&listing);
    return is_read;
}

static bool headers(size_t count, const struct file *file) {
    struct pef_header header;
    uint64_t sections = 0;
    for (size_t i = 0; i < count; i++) {
        if (pef_header(file->bytes, file->length, &header) != PEF_OK)
            return false;
        sections += header.section_count;
    }
    printf("%zu headers, %llu sections\n", count, (unsigned long long)sections);
    return true;
}

static bool contexts(size_t count) {
    for (size_t i = 0; i < count; i++) {
        struct pef_context context = {0};
        if (pef_open(&context, 0x10000000) != PEF_OK)
            return false;
        pef_free(&context);
    }
    printf("%zu contexts\n", count);
    return true;
}

int main(int argc, char **argv) {
    struct file file = {0};
    const char *work = argc > 1 ? argv[1] : "";
    if (strcmp(work, "contexts") == 0 && argc == 3)
        return contexts(strtoul(argv[2], NULL, 10)) ? 0 : 1;
    if (argc < 3 || !read_file(argv[argc - 1], &file))
        return 2;
    if (strcmp(work, "parts") == 0 && argc == 3)
        return parts(&file) ? 0 : 1;
    if (strcmp(work, "headers") == 0 && argc == 4)
        return headers(strtoul(argv[2], NULL, 10), &file) ? 0 : 1;
    return 2;
}
