/*
 * Reads the file of the classic Mac OS that is written by hand in mac_file.h, and compares what each call gives with numbers written by
 * hand. Then it cuts the file at every length, and turns each of its bytes in three ways: each answer has
 * to have a name, and each slice has to be a part of the file. Each copy is a block of its own length, so that an address sanitizer sees
 * a read past its end. What is wrong is printed, a line each, and the status is then 1.
 */
#include "mac_file.h"

#include <stdio.h>
#include <stdlib.h>
#include <string.h>

enum { PLACES = 8 };

static size_t compared, different;

static void compare(const char *name, uint64_t found, uint64_t wanted)
{
    compared++;
    if (found == wanted)
        return;
    different++;
    printf("%s: %llu and not %llu\n", name, (unsigned long long)found, (unsigned long long)wanted);
}

/* Compares a slice with bytes, and with its place in the file. */
static void compare_bytes(const char *name, struct pef_bytes found, const uint8_t *file, size_t at, size_t length)
{
    compared++;
    if (found.at == file + at && found.length == length)
        return;
    different++;
    printf("%s: %zu bytes at %td and not %zu at %zu\n", name, found.length, found.at - file, length, at);
}

static void read_forks(const uint8_t *file)
{
    struct pef_forks forks = PEF_NO_FORKS;
    compare("pef_file_kind", pef_file_kind(file, FILE_LENGTH), PEF_FILE_MAC_BINARY);
    compare("pef_forks", pef_forks(file, FILE_LENGTH, &forks), PEF_OK);
    compare("kind", forks.kind, PEF_FILE_MAC_BINARY);
    compare("error", forks.error, PEF_OK);
    compare("error_offset", forks.error_offset, PEF_NO_OFFSET);
    compare_bytes("data_fork", forks.data_fork.bytes, file, 128, 264);
    compare("data_fork.offset", forks.data_fork.offset, 128);
    compare("data_fork.error", forks.data_fork.error, PEF_OK);
    compare("data_fork.error_offset", forks.data_fork.error_offset, PEF_NO_OFFSET);
    compare_bytes("resource_fork", forks.resource_fork.bytes, file, 512, 290);
    compare("resource_fork.offset", forks.resource_fork.offset, 512);
    compare_bytes("name", forks.name.bytes, file, 2, 4);
    compare("comment.length", forks.comment.bytes.length, 0);
    compare("finder.error", forks.finder.error, PEF_OK);
    compare("finder.file_type", forks.finder.file_type, 0x4150504C);
    compare("finder.creator", forks.finder.creator, 0x43616C63);
    compare("finder.flags", forks.finder.flags, 0x2100);
    compare("finder.vertical", (uint64_t)forks.finder.vertical, (uint64_t)-2);
    compare("finder.horizontal", (uint64_t)forks.finder.horizontal, 20);
    compare("finder.window", forks.finder.window, 7);
}

static void read_resources(const uint8_t *file)
{
    const uint8_t *fork = file + 512;
    struct pef_resource_map map = {0};
    compare("pef_resource_map", pef_resource_map(fork, 290, &map), PEF_OK);
    compare("map.error", map.error, PEF_OK);
    compare("map.error_offset", map.error_offset, PEF_NO_OFFSET);
    compare("map.data_offset", map.data_offset, 16);
    compare("map.map_offset", map.map_offset, 203);
    compare("map.data_length", map.data_length, 187);
    compare("map.map_length", map.map_length, 87);
    compare("map.attributes", map.attributes, 0x80);
    compare("map.type_count", map.type_count, 2);

    struct pef_resource rows[PLACES];
    for (size_t i = 0; i < PLACES; i++)
        rows[i] = (struct pef_resource){.name = PEF_NO_BYTES, .bytes = PEF_NO_BYTES, .type = 99};
    size_t count = 0;
    compare("pef_resources", pef_resources(fork, 290, 0, rows, PLACES, &count), PEF_OK);
    compare("the count of resources", count, 2);
    compare("a place that is left", rows[2].type, 99);
    compare("row 0 type", rows[0].type, PEF_FRAGMENT_TABLE_TYPE);
    compare("row 0 name_error", rows[0].name_error, PEF_NOT_THERE);
    compare_bytes("row 0 bytes", rows[0].bytes, file, 532, 176);
    compare("row 1 type", rows[1].type, 0x6E647276);
    compare("row 1 id", (uint64_t)rows[1].id, 128);
    compare("row 1 type_row", rows[1].type_row, 1);
    compare("row 1 row", rows[1].row, 0);
    compare("row 1 attributes", rows[1].attributes, 0x20);
    compare("row 1 offset", rows[1].offset, 200);
    compare("row 1 error", rows[1].error, PEF_OK);
    compare("row 1 error_offset", rows[1].error_offset, PEF_NO_OFFSET);
    compare("row 1 name_error", rows[1].name_error, PEF_OK);
    compare_bytes("row 1 name", rows[1].name, file, 786, 2);
    compare_bytes("row 1 bytes", rows[1].bytes, file, 712, 3);
    compare("pef_resources from 1", pef_resources(fork, 290, 1, rows, 1, &count), PEF_OK);
    compare("the count from 1", count, 1);
    compare("the type from 1", rows[0].type, 0x6E647276);
    compare("pef_resources from 2", pef_resources(fork, 290, 2, rows, 1, &count), PEF_OK);
    compare("the count from 2", count, 0);

    struct pef_resource found = {.name = PEF_NO_BYTES, .bytes = PEF_NO_BYTES};
    compare("pef_find_resource", pef_find_resource(fork, 290, 0x6E647276, 128, &found), PEF_OK);
    compare_bytes("the resource that is found", found.bytes, file, 712, 3);
    compare("no such resource", pef_find_resource(fork, 290, 0x6E647276, -128, &found), PEF_NOT_THERE);
    compare_bytes("what is left", found.bytes, file, 712, 3);
}

static void read_members(const uint8_t *file)
{
    struct pef_member rows[PLACES];
    for (size_t i = 0; i < PLACES; i++)
        rows[i] = (struct pef_member){.name = PEF_NO_BYTES, .container = PEF_NO_BYTES};
    size_t count = 0;
    compare("pef_members", pef_members(file + 532, 176, file + 128, 264, 0, rows, PLACES, &count), PEF_OK);
    compare("the count of members", count, 3);
    compare("member 0 architecture", rows[0].architecture, 0x6D36386B);
    compare_bytes("member 0 container", rows[0].container, file, 128, 264);
    compare_bytes("member 1 name", rows[1].name, file, 655, 4);
    compare_bytes("member 1 container", rows[1].container, file, 136, 250);
    compare("member 1 place", rows[1].place, 80);
    compare("member 1 error", rows[1].error, PEF_OK);
    compare("member 1 error_offset", rows[1].error_offset, PEF_NO_OFFSET);
    compare("member 1 name_error", rows[1].name_error, PEF_OK);
    compare("member 1 container_error", rows[1].container_error, PEF_OK);
    compare("member 1 architecture", rows[1].architecture, 0x70777063);
    compare("member 1 update_level", rows[1].update_level, 7);
    compare("member 1 current_version", rows[1].current_version, 0x01206003);
    compare("member 1 old_def_version", rows[1].old_def_version, 0x01008000);
    compare("member 1 stack_size", rows[1].stack_size, 0x10000);
    compare("member 1 directory_or_flags", rows[1].directory_or_flags, 5);
    compare("member 1 usage", rows[1].usage, PEF_USAGE_APPLICATION);
    compare("member 1 locator", rows[1].locator, PEF_LOCATOR_DATA_FORK);
    compare("member 1 offset", rows[1].offset, 8);
    compare("member 1 length", rows[1].length, 250);
    compare("member 1 space_id", rows[1].space_id, 9);
    compare("member 1 fork_instance", rows[1].fork_instance, 11);
    compare("member 1 extension_count", rows[1].extension_count, 12);
    compare("member 1 size", rows[1].size, 48);
    compare("member 2 container_error", rows[2].container_error, PEF_NOT_THERE);
    compare("member 2 locator", rows[2].locator, PEF_LOCATOR_RESOURCE);
    compare("member 2 offset", rows[2].offset, 0x6E647276);
    compare("member 2 length", rows[2].length, 128);
    compare("pef_members, a short fork", pef_members(file + 532, 176, file + 128, 10, 1, rows, 1, &count), PEF_OK);
    compare("its error", rows[0].container_error, PEF_FRAGMENT_OUTSIDE);
    compare("the offset of that", rows[0].container_error_offset, 104);
    compare("pef_members, a short table", pef_members(file + 532, 100, file + 128, 264, 0, rows, PLACES, &count), PEF_OK);
    compare("the count of a short table", count, 2);
    compare("its size's error", rows[0].error, PEF_OK);
    compare("its last row", rows[1].error, PEF_MEMBER_CUT);
    compare("the offset of the last row", rows[1].error_offset, 80);
    compare("pef_members, no table", pef_members(file + 532, 31, file + 128, 264, 0, rows, PLACES, &count), PEF_FRAGMENT_TABLE_CUT);
}

static void find(const uint8_t *file)
{
    size_t places[PLACES] = {7, 7}, count = 0;
    compare("pef_find_containers", pef_find_containers(file, FILE_LENGTH, 0, places, PLACES, &count), PEF_OK);
    compare("the count of containers", count, 1);
    compare("the first container", places[0], 136);
    compare("a place that is left", places[1], 7);
    struct pef_bytes container = PEF_NO_BYTES;
    compare("pef_file_container", pef_file_container(file, FILE_LENGTH, (const uint8_t *)"Calc", 4, &container), PEF_OK);
    compare_bytes("Calc", container, file, 136, 250);
    compare("Drv", pef_fork_container(file, 0, file + 512, 290, (const uint8_t *)"Drv", 3, &container), PEF_OK);
    compare_bytes("Drv", container, file, 712, 3);
    compare("no such name", pef_file_container(file, FILE_LENGTH, (const uint8_t *)"calc", 4, &container), PEF_NO_CONTAINER);
    compare("outside", pef_fork_container(file, 0, file + 512, 290, (const uint8_t *)"Calc", 4, &container), PEF_FRAGMENT_OUTSIDE);
    compare_bytes("what is left", container, file, 712, 3);
    compare("pef_numbered_container", pef_numbered_container(file, FILE_LENGTH, 0, &container), PEF_OK);
    /* It reaches to the end of its member. */
    compare_bytes("container 0", container, file, 136, 250);
    compare("no such number", pef_numbered_container(file, FILE_LENGTH, 1, &container), PEF_NO_CONTAINER);
}

/* A null pointer with a length of 0 is no bytes, in every call. What is filled comes with any bytes. */
static void read_null(const uint8_t *file)
{
    const uint8_t *fork = file + 512;
    struct pef_forks forks;
    struct pef_resource_map map;
    struct pef_resource resource;
    struct pef_member rows[PLACES];
    struct pef_bytes container;
    size_t count = 7;
    memset(&forks, 0xA5, sizeof forks);
    memset(rows, 0xA5, sizeof rows);
    memset(&container, 0xA5, sizeof container);
    compare("pef_file_kind of null", pef_file_kind(NULL, 0), PEF_FILE_OTHER);
    compare("pef_forks of null", pef_forks(NULL, 0, &forks), PEF_OK);
    compare("its data fork", forks.data_fork.error, PEF_OK);
    compare("the length of that", forks.data_fork.bytes.length, 0);
    compare("its resource fork", forks.resource_fork.error, PEF_NOT_THERE);
    compare("its name", forks.name.error, PEF_NOT_THERE);
    compare("pef_resource_map of null", pef_resource_map(NULL, 0, &map), PEF_RESOURCE_MAP_OUTSIDE);
    compare("pef_resources of null", pef_resources(NULL, 0, 0, NULL, 0, &count), PEF_RESOURCE_MAP_OUTSIDE);
    compare("pef_find_resource of null", pef_find_resource(NULL, 0, PEF_FRAGMENT_TABLE_TYPE, 0, &resource), PEF_RESOURCE_MAP_OUTSIDE);
    compare("pef_members of null", pef_members(NULL, 0, NULL, 0, 0, NULL, 0, &count), PEF_FRAGMENT_TABLE_CUT);
    compare("a count that is left", count, 7);
    compare("pef_resources to no places", pef_resources(fork, 290, 0, NULL, 0, &count), PEF_OK);
    compare("the count of none", count, 0);
    compare("pef_members, no data fork", pef_members(file + 532, 176, NULL, 0, 0, rows, PLACES, &count), PEF_OK);
    compare("the count of members, no data fork", count, 3);
    compare("member 1 container_error, no data fork", rows[1].container_error, PEF_FRAGMENT_OUTSIDE);
    compare("member 2 container_error, no data fork", rows[2].container_error, PEF_NOT_THERE);
    compare("pef_find_containers of null", pef_find_containers(NULL, 0, 0, NULL, 0, &count), PEF_OK);
    compare("the count of containers in null", count, 0);
    compare("pef_file_container of null", pef_file_container(NULL, 0, (const uint8_t *)"Calc", 4, &container), PEF_NO_CONTAINER);
    compare("a fragment without a name", pef_file_container(file, FILE_LENGTH, NULL, 0, &container), PEF_NO_CONTAINER);
    compare("pef_fork_container of null", pef_fork_container(NULL, 0, NULL, 0, (const uint8_t *)"Calc", 4, &container), PEF_NO_CONTAINER);
    compare("Calc, no data fork", pef_fork_container(NULL, 0, fork, 290, (const uint8_t *)"Calc", 4, &container), PEF_FRAGMENT_OUTSIDE);
    compare("Drv, no data fork", pef_fork_container(NULL, 0, fork, 290, (const uint8_t *)"Drv", 3, &container), PEF_OK);
    compare_bytes("Drv, no data fork", container, file, 712, 3);
    compare("pef_numbered_container of null", pef_numbered_container(NULL, 0, 0, &container), PEF_NO_CONTAINER);
}

/* --- damage --- */

static size_t tried, wrong;

/* Whether an answer is one that has a name. */
static bool is_ok(uint32_t answer)
{
    struct pef_bytes name = PEF_NO_BYTES;
    if (answer != PEF_OK && (pef_name(answer, &name) != PEF_OK || name.length == 0))
        wrong++;
    return answer == PEF_OK;
}

/* Whether a slice is a part of some bytes, or has none. Each byte of it is read. */
static void check_part(struct pef_bytes part, const uint8_t *bytes, size_t length)
{
    if (part.length != 0 && (part.at < bytes || part.length > length || (size_t)(part.at - bytes) > length - part.length))
        wrong++;
}

static void read_fork(const uint8_t *fork, size_t length, struct pef_bytes data)
{
    struct pef_resource_map map = {0};
    if (!is_ok(pef_resource_map(fork, length, &map)))
        return;
    is_ok(map.error);
    struct pef_resource rows[PLACES], table = {.name = PEF_NO_BYTES, .bytes = PEF_NO_BYTES};
    for (size_t i = 0; i < PLACES; i++)
        rows[i] = table;
    size_t count = 0;
    is_ok(pef_resources(fork, length, 0, rows, PLACES, &count));
    for (size_t i = 0; i < count; i++) {
        is_ok(rows[i].error);
        is_ok(rows[i].name_error);
        check_part(rows[i].name, fork, length);
        check_part(rows[i].bytes, fork, length);
    }
    if (!is_ok(pef_find_resource(fork, length, PEF_FRAGMENT_TABLE_TYPE, 0, &table)))
        return;
    struct pef_member members[PLACES];
    for (size_t i = 0; i < PLACES; i++)
        members[i] = (struct pef_member){.name = PEF_NO_BYTES, .container = PEF_NO_BYTES};
    if (!is_ok(pef_members(table.bytes.at, table.bytes.length, data.at, data.length, 0, members, PLACES, &count)))
        return;
    for (size_t i = 0; i < count; i++) {
        is_ok(members[i].error);
        is_ok(members[i].name_error);
        is_ok(members[i].container_error);
        check_part(members[i].name, fork, length);
        check_part(members[i].container, data.at, data.length);
    }
}

static void read_all(const uint8_t *bytes, size_t length)
{
    size_t places[PLACES], count = 0;
    struct pef_bytes container = PEF_NO_BYTES;
    is_ok(pef_find_containers(bytes, length, 0, places, PLACES, &count));
    if (pef_file_kind(bytes, length) > PEF_FILE_RESOURCE_FORK)
        wrong++;
    if (is_ok(pef_file_container(bytes, length, (const uint8_t *)"Calc", 4, &container)))
        check_part(container, bytes, length);
    struct pef_forks forks = PEF_NO_FORKS;
    if (!is_ok(pef_forks(bytes, length, &forks)))
        return;
    const struct pef_part each[] = {forks.data_fork, forks.resource_fork, forks.name, forks.comment};
    for (size_t i = 0; i < 4; i++) {
        is_ok(each[i].error);
        check_part(each[i].bytes, bytes, length);
    }
    is_ok(forks.finder.error);
    is_ok(forks.error);
    read_fork(forks.resource_fork.bytes.at, forks.resource_fork.bytes.length, forks.data_fork.bytes);
}

static void damage(const uint8_t *file, size_t length, size_t at, uint8_t turned)
{
    uint8_t *copy = malloc(length == 0 ? 1 : length);
    if (copy == NULL)
        abort();
    memcpy(copy, file, length);
    if (at < length)
        copy[at] ^= turned;
    read_all(copy, length);
    read_fork(copy, length, (struct pef_bytes){copy, length});
    tried++;
    free(copy);
}

int main(void)
{
    uint8_t *file = calloc(FILE_LENGTH, 1);
    if (file == NULL)
        return 1;
    write_mac_file(file);
    read_forks(file);
    read_resources(file);
    read_members(file);
    find(file);
    read_null(file);
    static const uint8_t turns[] = {0x01, 0x80, 0xFF};
    for (size_t at = 0; at < FILE_LENGTH; at++) {
        damage(file, at, at, 0);
        for (size_t i = 0; i < sizeof turns; i++)
            damage(file, FILE_LENGTH, at, turns[i]);
    }
    for (size_t at = 512; at < FILE_LENGTH; at++)
        for (size_t i = 0; i < sizeof turns; i++)
            damage(file + 512, FILE_LENGTH - 512, at - 512, turns[i]);
    free(file);
    printf("%zu compared, %zu different, %zu tried, %zu wrong\n", compared, different, tried, wrong);
    return different == 0 && wrong == 0 ? 0 : 1;
}
