/*
 * Reads reports part by part. All parts together have to be the whole report. What differs is printed, a line each, and the status
 * is then 1. With the word `print` and a file it prints the report on it, as `pef inspect --json` does.
 */
#include "expect.h"
#include "file.h"

enum { ROOM = 4096, UNWRITTEN = 0x7A };

/* The report on no bytes under the name `a b`, as docs/INSPECT.md has it. */
static const char empty[] = "{\"file\":\"a b\",\"file_bytes\":\"a%20b\",\"size\":0,\"format\":\"other\",\"forks\":[],\"mac\":null,\"resources\":[],\"fragments\":[],\"containers\":[],\"errors\":[],\"notes\":[]}\n";

/* The object of the bytes `Joy!` as a container. */
static const char refused[] =
    "{\"offset\":0,\"header\":null,\"sections\":[],\"loader\":null,\"libraries\":[],\"imports\":[],\"relocations\":[],\"exports\":[],"
    "\"entries\":{\"main\":null,\"init\":null,\"term\":null},\"errors\":[{\"number\":1,\"name\":\"TooShort\",\"part\":\"header\",\"row\":0,"
    "\"field\":null,\"offset\":0}],\"notes\":[],\"verdict\":{\"state\":\"cut\",\"needs\":40,\"has\":4,\"sections\":\"damaged\","
    "\"imports\":\"damaged\",\"exports\":\"damaged\",\"relocations\":\"damaged\",\"as_text\":false}}";

/* Reads a report in parts of one size, and compares all of them with a text. */
static void read_in_parts(struct pef_report *report, size_t size, const char *text)
{
    size_t left = strlen(text), written = 7;
    for (size_t parts = 0; parts < 2 || left != 0; parts++) {
        uint8_t buffer[ROOM];
        size_t wanted = size < left ? size : left;
        memset(buffer, UNWRITTEN, ROOM);
        EXPECT(pef_report_next(report, buffer, size, &written) == PEF_OK && written == wanted);
        EXPECT(memcmp(buffer, text, wanted) == 0 && buffer[wanted] == UNWRITTEN);
        if (written != wanted)
            return;
        text += wanted;
        left -= wanted;
    }
}

static void test_parts(void)
{
    static const size_t sizes[] = {1, 2, 7, 100, sizeof empty - 2, sizeof empty - 1, sizeof empty, ROOM - 1};
    struct pef_report report = PEF_NO_REPORT;
    for (size_t i = 0; i < sizeof sizes / sizeof sizes[0]; i++) {
        EXPECT(pef_report_open(&report, TEXT("a b"), NULL, 0) == PEF_OK && report.is_open);
        read_in_parts(&report, sizes[i], empty);
        EXPECT(pef_report_open_container(&report, TEXT("Joy!")) == PEF_OK && report.is_open);
        read_in_parts(&report, sizes[i], refused);
    }
    pef_report_free(&report);
    EXPECT(!report.is_open);
}

/* A report that isn't open, one of which no byte is asked, and one that is freed twice. */
static void test_not_open(void)
{
    struct pef_report report = PEF_NO_REPORT;
    uint8_t byte = 7;
    size_t written = 7;
    pef_report_free(NULL);
    pef_report_free(&report);
    EXPECT(pef_report_next(&report, &byte, 1, &written) == PEF_NOT_OPEN && byte == 7 && written == 7);
    EXPECT(pef_report_open(&report, NULL, 0, NULL, 0) == PEF_OK);
    EXPECT(pef_report_next(&report, NULL, 0, &written) == PEF_OK && written == 0);
    EXPECT(pef_report_next(&report, &byte, 1, &written) == PEF_OK && written == 1 && byte == '{');
    EXPECT(pef_report_open_container(&report, NULL, 0) == PEF_OK);
    EXPECT(pef_report_next(&report, &byte, 1, &written) == PEF_OK && written == 1 && byte == '{');
    pef_report_free(&report);
    pef_report_free(&report);
    EXPECT(pef_report_next(&report, &byte, 1, &written) == PEF_NOT_OPEN);
}

/* What was given may change once a report is open. */
static void test_kept(void)
{
    struct pef_report report = PEF_NO_REPORT;
    uint8_t path[] = {'a', ' ', 'b'}, bytes[] = {'J', 'o', 'y', '!'};
    EXPECT(pef_report_open(&report, path, 3, bytes, 0) == PEF_OK);
    memset(path, 0, sizeof path);
    read_in_parts(&report, 10, empty);
    EXPECT(pef_report_open_container(&report, bytes, 4) == PEF_OK);
    memset(bytes, 0, sizeof bytes);
    read_in_parts(&report, 10, refused);
    pef_report_free(&report);
}

/* The head and the end of the report on bytes without a container are the report. */
static void test_head_and_end(void)
{
    static const char end[] = "],\"errors\":[],\"notes\":[]}\n";
    char head[sizeof empty];
    struct pef_report report = PEF_NO_REPORT;
    struct pef_found_container found;
    memcpy(head, empty, sizeof empty);
    head[sizeof empty - sizeof end] = 0;
    EXPECT(pef_report_open_head(&report, TEXT("a b"), NULL, 0) == PEF_OK);
    read_in_parts(&report, 10, head);
    EXPECT(pef_first_container(NULL, 0, &found) == PEF_NOT_THERE && found.offset == 0 && found.length == 0 && found.number == 0);
    EXPECT(pef_report_open_end(&report, NULL, 0, &found) == PEF_OK);
    read_in_parts(&report, 10, end);
    pef_report_free(&report);
}

/* A container that begins after some bytes, whose sections aren't all there, and its first section. */
static void test_container(void)
{
    static const char section[] =
        "{\"offset\":45,\"kind\":0,\"kind_text\":\"code\",\"share\":0,\"share_text\":null,\"align\":0,\"total\":0,\"unpacked\":0,"
        "\"packed\":0,\"default\":0,\"raw\":5,\"name\":null}";
    struct pef_report report = PEF_NO_REPORT;
    struct pef_found_container found;
    struct pef_row_range rows = {.part = PEF_SECTION_PART, .count = 9};
    uint8_t file[74] = "12345Joy!peffpwpc", byte;
    size_t written;
    file[38] = 2;
    file[45] = file[46] = file[47] = file[48] = 0xFF;
    EXPECT(pef_first_container(file, 73, &found) == PEF_OK && found.offset == 5 && found.length == 68 && found.number == 0);
    rows.offset = found.offset;
    EXPECT(pef_report_open_rows(&report, file, 73, &rows) == PEF_OK);
    read_in_parts(&report, 10, section);
    EXPECT(pef_report_open_excerpt(&report, file, 73, &found, 1) == PEF_OK);
    EXPECT(pef_report_next(&report, &byte, 1, &written) == PEF_OK && written == 1 && byte == '{');
    EXPECT(pef_report_open_found(&report, file, 73, &found) == PEF_OK);
    EXPECT(pef_report_next(&report, &byte, 1, &written) == PEF_OK && written == 1 && byte == '{');
    rows.part = PEF_LOADER_HEADER_PART;
    EXPECT(pef_report_open_rows(&report, file, 73, &rows) == PEF_NOT_THERE && !report.is_open);
    EXPECT(pef_next_container(file, 73, &found) == PEF_NOT_THERE && found.offset == 73 && found.length == 0 && found.number == 1);
    pef_report_free(&report);
}

/* Prints the report on a file. */
static int print(const char *path)
{
    struct pef_report report = PEF_NO_REPORT;
    size_t length, written = 0;
    uint8_t *bytes = read_file(path, &length), buffer[ROOM];
    if (bytes == NULL) {
        perror(path);
        return 1;
    }
    uint32_t answer = pef_report_open(&report, (const uint8_t *)path, strlen(path), bytes, length);
    free(bytes);
    do {
        if (answer == PEF_OK)
            answer = pef_report_next(&report, buffer, ROOM, &written);
        if (answer != PEF_OK || fwrite(buffer, 1, written, stdout) != written)
            break;
    } while (written == ROOM);
    pef_report_free(&report);
    return answer == PEF_OK ? 0 : 1;
}

int main(int count, char **words)
{
    if (count == 3 && strcmp(words[1], "print") == 0)
        return print(words[2]);
    test_parts();
    test_not_open();
    test_kept();
    test_head_and_end();
    test_container();
    printf("%zu failures\n", failures);
    return failures == 0 ? 0 : 1;
}
