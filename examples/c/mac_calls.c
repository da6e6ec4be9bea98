/*
 * Tries each call on files of the classic Mac OS, on a small file that is written by hand: its forks, resources, fragments and containers,
 * and what a call leaves unchanged. mac.c has each field of each struct, and damaged files. What differs is printed, a line each, and the
 * status is then 1.
 */
#include "expect.h"

enum { TABLE_LENGTH = 80, FORK_LENGTH = 150, FILE_LENGTH = 406 };

/* A table of one fragment, `Calc`: all bytes from 2 of the data fork. */
static uint8_t table[TABLE_LENGTH];

/* A resource fork: the table at 20, and the map at 100. */
static uint8_t fork_bytes[FORK_LENGTH];

/* A file in MacBinary I, whose data fork has a container header at 130. The resource fork is at 256. */
static uint8_t file[FILE_LENGTH];

/* Writes the bytes of a literal. All others are 0. */
#define WRITE(bytes, at, literal) memcpy((bytes) + (at), literal, sizeof literal - 1)

static void make_file(void)
{
    WRITE(table, 11, "\x01");
    WRITE(table, 31, "\x01" "pwpc");
    WRITE(table, 54, "\x01\x01\x00\x00\x00\x02");
    WRITE(table, 73, "\x30\x04" "Calc");
    WRITE(fork_bytes, 0, "\x00\x00\x00\x10\x00\x00\x00\x64\x00\x00\x00\x54\x00\x00\x00\x32");
    WRITE(fork_bytes, 16, "\x00\x00\x00\x50");
    memcpy(fork_bytes + 20, table, TABLE_LENGTH);
    WRITE(fork_bytes, 124, "\x00\x1C\x00\x32");
    WRITE(fork_bytes, 128, "\x00\x00" "cfrg\x00\x00\x00\x0A");
    WRITE(fork_bytes, 138, "\x00\x00\xFF\xFF");
    WRITE(file, 1, "\x04" "File");
    WRITE(file, 83, "\x00\x00\x00\x2A\x00\x00\x00\x96");
    WRITE(file, 130, "Joy!peff");
    memcpy(file + 256, fork_bytes, FORK_LENGTH);
}

static bool is_table(struct pef_bytes found)
{
    return has(found, table, TABLE_LENGTH);
}

static void test_forks(void)
{
    struct pef_forks forks, none = PEF_NO_FORKS;
    memset(&forks, 7, sizeof forks);
    none.kind = 7;
    EXPECT(pef_file_kind(file, FILE_LENGTH) == PEF_FILE_MAC_BINARY);
    EXPECT(pef_forks(file, FILE_LENGTH, &forks) == PEF_OK);
    EXPECT(forks.kind == PEF_FILE_MAC_BINARY && forks.error == PEF_OK && forks.error_offset == PEF_NO_OFFSET);
    EXPECT(has(forks.data_fork.bytes, file + 128, 42) && forks.data_fork.offset == 128);
    EXPECT(forks.data_fork.error == PEF_OK && forks.data_fork.error_offset == PEF_NO_OFFSET);
    EXPECT(has(forks.resource_fork.bytes, file + 256, FORK_LENGTH));
    EXPECT(is_named(forks.name.bytes, "File") && forks.finder.error == PEF_OK);
    EXPECT(pef_forks((const uint8_t *)"\x00\x05\x16\x00", 4, &none) == PEF_APPLE_HEADER_CUT && none.kind == 7);
    EXPECT(pef_forks(TEXT("plain"), &none) == PEF_OK && none.kind == PEF_FILE_OTHER);
    EXPECT(none.resource_fork.error == PEF_NOT_THERE && none.finder.error == PEF_NOT_THERE);
}

static void test_resources(void)
{
    struct pef_resource_map map = {7, 7, 7, 7, 7, 7, 7, 7};
    struct pef_resource rows[2] = {{.error = 7, .name_error = 7}, {.error = 7}}, found = {.error = 7};
    size_t count = 7;
    EXPECT(pef_resource_map(fork_bytes, FORK_LENGTH, &map) == PEF_OK && map.map_offset == 100);
    EXPECT(map.type_count == 1 && map.error == PEF_OK && map.data_length == 84);
    EXPECT(pef_resources(fork_bytes, FORK_LENGTH, 0, rows, 2, &count) == PEF_OK && count == 1);
    EXPECT(rows[0].type == PEF_FRAGMENT_TABLE_TYPE && is_table(rows[0].bytes) && rows[0].offset == 20);
    EXPECT(rows[0].error == PEF_OK && rows[0].name_error == PEF_NOT_THERE && rows[1].error == 7);
    EXPECT(pef_resources(fork_bytes, FORK_LENGTH, 1, rows, 2, &count) == PEF_OK && count == 0);
    EXPECT(pef_resources(fork_bytes, 15, 0, rows, 2, &count) == PEF_RESOURCE_MAP_OUTSIDE && count == 0);
    EXPECT(pef_find_resource(fork_bytes, FORK_LENGTH, PEF_FRAGMENT_TABLE_TYPE, 0, &found) == PEF_OK && is_table(found.bytes));
    EXPECT(pef_find_resource(fork_bytes, FORK_LENGTH, PEF_FRAGMENT_TABLE_TYPE, 1, &found) == PEF_NOT_THERE);
}

static void test_members(void)
{
    struct pef_member rows[2] = {{.error = 7, .container_error = 7}, {.error = 7}};
    size_t count = 7;
    EXPECT(pef_members(table, TABLE_LENGTH, TEXT("abcde"), 0, rows, 2, &count) == PEF_OK && count == 1);
    EXPECT(is_named(rows[0].name, "Calc") && is_named(rows[0].container, "cde") && rows[0].size == 48);
    EXPECT(rows[0].error == PEF_OK && rows[0].container_error == PEF_OK && rows[1].error == 7);
    EXPECT(pef_members(table, TABLE_LENGTH, TEXT("a"), 0, rows, 2, &count) == PEF_OK);
    EXPECT(rows[0].container_error == PEF_FRAGMENT_OUTSIDE && rows[0].container_error_offset == 56);
    EXPECT(pef_members(table, 31, TEXT(""), 0, rows, 2, &count) == PEF_FRAGMENT_TABLE_CUT && count == 1);
}

static void test_containers(void)
{
    size_t places[2] = {7, 7}, count = 7;
    struct pef_bytes found = PEF_NO_BYTES;
    EXPECT(pef_find_containers(file, FILE_LENGTH, 0, places, 2, &count) == PEF_OK);
    EXPECT(count == 1 && places[0] == 130 && places[1] == 7);
    EXPECT(pef_file_container(file, FILE_LENGTH, TEXT("Calc"), &found) == PEF_OK && has(found, file + 130, 40));
    EXPECT(pef_file_container(file, FILE_LENGTH, TEXT("calc"), &found) == PEF_NO_CONTAINER && found.length == 40);
    EXPECT(pef_fork_container(TEXT("abcde"), fork_bytes, FORK_LENGTH, TEXT("Calc"), &found) == PEF_OK && is_named(found, "cde"));
    EXPECT(pef_fork_container(TEXT("a"), fork_bytes, FORK_LENGTH, TEXT("Calc"), &found) == PEF_FRAGMENT_OUTSIDE && is_named(found, "cde"));
    EXPECT(pef_numbered_container(file, FILE_LENGTH, 0, &found) == PEF_OK && has(found, file + 130, 40));
    EXPECT(pef_numbered_container(file, FILE_LENGTH, 1, &found) == PEF_NO_CONTAINER && found.length == 40);
}

int main(void)
{
    make_file();
    test_forks();
    test_resources();
    test_members();
    test_containers();
    printf("%zu failures\n", failures);
    return failures == 0 ? 0 : 1;
}
