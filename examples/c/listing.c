/*
 * Reads listings part by part, and one of 4,002 lines. All parts together have to be the lines that pef_list gives at once. What
 * differs is printed, a line each, and the status is then 1.
 */
#include "expect.h"

/* Sections, a library, imports, entries, a relocation program and exports. */
static const char script[] =
    "versions 1 0 0\n"
    "library One 1 0 -\n"
    "import first data strong\n"
    "import second tvector weak\n"
    "section code code global 4 8\n"
    "section data data process 4 24\n"
    "bytes code 0011223344556677\n"
    "tvector data 0 code data\n"
    "tvector data 8 code data\n"
    "fix data 16 import first\n"
    "fix data 20 import second\n"
    "export go tvector data 0\n"
    "export on data data 16\n"
    "main data 0\n"
    "init data 8\n";

enum { ROOM = 4096, UNWRITTEN = 0x7A };

/* The container of the script, and its lines. */
static struct pef_bytes container, lines;

static bool is_unwritten(const uint8_t *bytes, size_t length)
{
    for (size_t i = 0; i < length; i++)
        if (bytes[i] != UNWRITTEN)
            return false;
    return true;
}

static void list_script(void)
{
    static uint8_t buffer[ROOM];
    container = linked(script);
    lines.at = buffer;
    EXPECT(pef_list(BYTES(container), buffer, ROOM, &lines.length) == PEF_OK);
    EXPECT(lines.length > 25 && memcmp(buffer, "container ", 10) == 0);
    EXPECT(lines.length > 25 && memcmp(buffer + lines.length - 15, "value 00000010\n", 15) == 0);
}

/* Reads the next part, which is the front of `left`, as long as it may be. Then `left` is what is left. */
static void read_part(struct pef_listing *listing, size_t size, struct pef_bytes *left)
{
    uint8_t buffer[ROOM];
    size_t written = 7, wanted = size < left->length ? size : left->length;
    memset(buffer, UNWRITTEN, ROOM);
    EXPECT(pef_list_next(listing, buffer, size, &written) == PEF_OK && written == wanted);
    EXPECT(memcmp(buffer, left->at, wanted) == 0 && is_unwritten(buffer + wanted, ROOM - wanted));
    left->at += wanted;
    left->length -= wanted;
}

/* Parts of one size are the lines, whole and in order, and nothing comes after them. */
static void test_parts_of(size_t size)
{
    struct pef_listing listing = PEF_NO_LISTING;
    struct pef_bytes left = lines;
    EXPECT(pef_list_open(&listing, BYTES(container)) == PEF_OK);
    for (size_t i = 0; i <= lines.length; i++)
        read_part(&listing, size, &left);
    EXPECT(left.length == 0);
    pef_list_free(&listing);
}

static void test_parts(void)
{
    const size_t sizes[] = {1, 2, 7, 100, lines.length - 1, lines.length, lines.length + 1, ROOM};
    for (size_t i = 0; i < sizeof sizes / sizeof sizes[0]; i++)
        test_parts_of(sizes[i]);
}

/* Parts of other sizes in one listing, also of no bytes. */
static void test_sizes(void)
{
    static const size_t sizes[] = {0, 3, 200, 0, 1, 77, ROOM, 0, 5};
    struct pef_listing listing = PEF_NO_LISTING;
    struct pef_bytes left = lines;
    EXPECT(pef_list_open(&listing, BYTES(container)) == PEF_OK);
    for (size_t i = 0; i < sizeof sizes / sizeof sizes[0]; i++)
        read_part(&listing, sizes[i], &left);
    EXPECT(left.length == 0);
    pef_list_free(&listing);
}

/* A listing that isn't open, that was freed, and of what isn't a container. */
static void test_not_open(void)
{
    struct pef_listing listing = PEF_NO_LISTING;
    uint8_t buffer[6] = {'b', 'e', 'f', 'o', 'r', 'e'};
    size_t written = 7;
    EXPECT(pef_list_next(&listing, buffer, 6, &written) == PEF_NOT_OPEN);
    EXPECT(pef_list_open(&listing, BYTES(container)) == PEF_OK);
    pef_list_free(&listing);
    EXPECT(pef_list_next(&listing, buffer, 6, &written) == PEF_NOT_OPEN);
    EXPECT(pef_list_open(&listing, BYTES(container)) == PEF_OK);
    EXPECT(pef_list_open(&listing, TEXT(script)) == PEF_BAD_TAG);
    EXPECT(pef_list_next(&listing, buffer, 6, &written) == PEF_NOT_OPEN);
    pef_list_free(&listing);
    EXPECT(written == 7 && memcmp(buffer, "before", 6) == 0);
    EXPECT(pef_list_open(&listing, BYTES(container)) == PEF_OK);
    EXPECT(pef_list_next(&listing, buffer, 6, &written) == PEF_OK);
    EXPECT(written == 6 && memcmp(buffer, "contai", 6) == 0);
    pef_list_free(&listing);
}

/* The front of a container without sections. Its loader section is at 68: a header of 56 bytes, the name `e`, three zeros, and a slot of
 * 4,000 keys. The keys and the exports follow, 56,000 bytes. */
static const uint8_t front[] = {
    0x4A, 0x6F, 0x79, 0x21, 0x70, 0x65, 0x66, 0x66, 0x70, 0x77, 0x70, 0x63, 0x00, 0x00, 0x00, 0x01,
    0x00, 0x00, 0x00, 0x00, 0x00, 0x00, 0x00, 0x00, 0x00, 0x00, 0x00, 0x00, 0x00, 0x00, 0x00, 0x00,
    0x00, 0x01, 0x00, 0x00, 0x00, 0x00, 0x00, 0x00, 0xFF, 0xFF, 0xFF, 0xFF, 0x00, 0x00, 0x00, 0x00,
    0x00, 0x00, 0x00, 0x00, 0x00, 0x00, 0x00, 0x00, 0x00, 0x00, 0xDB, 0x00, 0x00, 0x00, 0x00, 0x44,
    0x04, 0x04, 0x04, 0x00, 0xFF, 0xFF, 0xFF, 0xFF, 0x00, 0x00, 0x00, 0x00, 0xFF, 0xFF, 0xFF, 0xFF,
    0x00, 0x00, 0x00, 0x00, 0xFF, 0xFF, 0xFF, 0xFF, 0x00, 0x00, 0x00, 0x00, 0x00, 0x00, 0x00, 0x00,
    0x00, 0x00, 0x00, 0x00, 0x00, 0x00, 0x00, 0x00, 0x00, 0x00, 0x00, 0x38, 0x00, 0x00, 0x00, 0x38,
    0x00, 0x00, 0x00, 0x3C, 0x00, 0x00, 0x00, 0x00, 0x00, 0x00, 0x0F, 0xA0, 0x65, 0x00, 0x00, 0x00,
    0x3E, 0x80, 0x00, 0x00,
};

enum { EXPORTS = 4000, LONG_LENGTH = sizeof front + EXPORTS * 14, LONG_ROOM = 200000 };

/* Writes a container of many exports with one name. The value of each is its number. */
static void write_long_container(uint8_t *bytes)
{
    memcpy(bytes, front, sizeof front);
    for (size_t i = 0; i < EXPORTS; i++) {
        const uint8_t row[] = {1, 0, 0, 0, 0, 0, (uint8_t)(i >> 8), (uint8_t)i, 0xFF, 0xFE};
        memcpy(bytes + sizeof front + 4 * i, "\x00\x01\x00\x65", 4);
        memcpy(bytes + sizeof front + 4 * EXPORTS + sizeof row * i, row, sizeof row);
    }
}

/* Writes its lines, and returns how many bytes they have. */
static size_t write_long_lines(char *text)
{
    char *end = text;
    end += sprintf(end, "container current 0 olddef 0 oldimp 0 date 0\n");
    end += sprintf(end, "section 0 kind 4 share 4 align 4 total 0 unpacked 0 packed 56064 default 00000000 name -\n");
    for (unsigned i = 0; i < EXPORTS; i++)
        end += sprintf(end, "export e class 1 section -2 value %08X\n", i);
    return (size_t)(end - text);
}

/* A listing of 4,002 lines, at once and in two parts. */
static void test_long_listing(void)
{
    static uint8_t bytes[LONG_LENGTH], buffer[LONG_ROOM];
    static char text[LONG_ROOM];
    struct pef_listing listing = PEF_NO_LISTING;
    size_t written = 0;
    write_long_container(bytes);
    size_t length = write_long_lines(text);
    EXPECT(pef_list(bytes, LONG_LENGTH, buffer, LONG_ROOM, &written) == PEF_OK && written == length);
    EXPECT(memcmp(buffer, text, length) == 0);
    EXPECT(pef_list_open(&listing, bytes, LONG_LENGTH) == PEF_OK);
    EXPECT(pef_list_next(&listing, buffer, 100000, &written) == PEF_OK && written == 100000);
    EXPECT(memcmp(buffer, text, 100000) == 0);
    EXPECT(pef_list_next(&listing, buffer, LONG_ROOM, &written) == PEF_OK && written == length - 100000);
    EXPECT(memcmp(buffer, text + 100000, length - 100000) == 0);
    pef_list_free(&listing);
}

int main(void)
{
    list_script();
    if (failures == 0) {
        test_parts();
        test_sizes();
    }
    test_not_open();
    test_long_listing();
    printf("%zu failures\n", failures);
    return failures == 0 ? 0 : 1;
}
