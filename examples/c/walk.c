/*
 * Walks over a container: walk FILE prints what `pef list` prints, but relocation instructions as halfwords alone. Each line
 * comes from the calls that read a container part by part. Packed sections are expanded, to see that they can be. Each table
 * is read by one call, since each call reads the loader section anew.
 */
#include "file.h"

#include <string.h>

static struct pef_bytes container;

static bool is_plain(uint8_t byte)
{
    return byte > 0x20 && byte < 0x7f && byte != '%';
}

/* Prints a name, with each byte that isn't printable and each % as % and two digits. */
static void print_name(struct pef_bytes name)
{
    size_t plain = 0;
    while (plain < name.length && is_plain(name.at[plain]))
        plain++;
    fwrite(name.at, 1, plain, stdout);
    for (size_t i = plain; i < name.length; i++)
        printf(is_plain(name.at[i]) ? "%c" : "%%%02X", name.at[i]);
}

static uint32_t expand(struct pef_bytes packed, size_t length)
{
    uint8_t *image = malloc(length == 0 ? 1 : length);
    if (image == NULL)
        return PEF_OUT_OF_MEMORY;
    uint32_t answer = pef_expand(packed.at, packed.length, image, length);
    free(image);
    return answer;
}

static uint32_t print_section(size_t number)
{
    struct pef_section section = {0};
    struct pef_bytes raw = PEF_NO_BYTES, name = PEF_NO_BYTES;
    uint32_t answer = pef_section(container.at, container.length, number, &section, &raw);
    if (answer != PEF_OK)
        return answer;
    printf("section %zu kind %u share %u align %u total %u unpacked %u packed %lu default %08X name ", number, section.kind,
           section.share, section.alignment, section.total_size, section.unpacked_size, (unsigned long)raw.length, section.default_address);
    answer = pef_section_name(container.at, container.length, number, &name);
    if (answer == PEF_NOT_THERE)
        fputs("-", stdout);
    else
        print_name(name);
    puts("");
    if (section.packed_size != 0 && raw.at != container.at + section.container_offset)
        return PEF_SECTION_OUTSIDE;
    return section.kind == PEF_KIND_PACKED ? expand(raw, section.unpacked_size) : PEF_OK;
}

/* Makes an array of `count` rows, of which each starts as `row`. The caller frees it. It isn't NULL for no rows. */
static void *make_rows(size_t count, const void *row, size_t size)
{
    char *rows = malloc((count + 1) * size);
    for (size_t i = 0; rows != NULL && i < count; i++)
        memcpy(rows + i * size, row, size);
    return rows;
}

static uint32_t print_libraries(struct pef_library *libraries, size_t room)
{
    pef_size count = 0;
    uint32_t answer = pef_libraries(container.at, container.length, 0, libraries, room, &count);
    for (size_t i = 0; answer == PEF_OK && i < count; i++) {
        fputs("library ", stdout);
        print_name(libraries[i].name);
        printf(" current %u oldimp %u options %02X\n", libraries[i].current_version, libraries[i].old_imp_version, libraries[i].options);
    }
    return answer;
}

static uint32_t print_imports(struct pef_import *imports, size_t room, const struct pef_library *libraries)
{
    pef_size count = 0;
    uint32_t answer = pef_imports(container.at, container.length, 0, imports, room, &count);
    for (size_t i = 0; answer == PEF_OK && i < count; i++) {
        printf("import %zu ", i);
        print_name(imports[i].name);
        fputs(" of ", stdout);
        print_name(libraries[imports[i].library].name);
        printf(" class %u %s\n", imports[i].symbol_class, imports[i].weak ? "weak" : "strong");
    }
    return answer;
}

/* Prints the halfwords of each instruction. Those that begin with A or B have two. */
static void print_instructions(struct pef_bytes it)
{
    for (size_t i = 0; i + 1 < it.length; i += 2) {
        printf("%02X%02X", it.at[i], it.at[i + 1]);
        if ((it.at[i] >> 4 == 0xA || it.at[i] >> 4 == 0xB) && i + 3 < it.length) {
            i += 2;
            printf(" %02X%02X", it.at[i], it.at[i + 1]);
        }
        putchar('\n');
    }
}

static uint32_t print_relocations(struct pef_relocation *relocations, size_t room)
{
    pef_size count = 0;
    uint32_t answer = pef_relocations(container.at, container.length, 0, relocations, room, &count);
    for (size_t i = 0; answer == PEF_OK && i < count; i++) {
        printf("reloc section %u halfwords %lu\n", relocations[i].section, (unsigned long)relocations[i].instructions.length / 2);
        print_instructions(relocations[i].instructions);
    }
    return answer;
}

static uint32_t print_exports(struct pef_export *exports, size_t room)
{
    pef_size count = 0;
    uint32_t answer = pef_exports(container.at, container.length, 0, exports, room, &count);
    for (size_t i = 0; answer == PEF_OK && i < count; i++) {
        fputs("export ", stdout);
        print_name(exports[i].name);
        printf(" class %u section %d value %08X\n", exports[i].symbol_class, exports[i].section, exports[i].value);
    }
    return answer;
}

static void print_entry(const char *label, int32_t section, uint32_t offset)
{
    if (section != PEF_NO_ENTRY)
        printf("%s %d %08X\n", label, section, offset);
}

/* The rows of all tables. */
struct rows {
    struct pef_library *libraries;
    struct pef_import *imports;
    struct pef_relocation *relocations;
    struct pef_export *exports;
};

static uint32_t print_rows(const struct pef_loader *loader, const struct rows *rows)
{
    if (rows->libraries == NULL || rows->imports == NULL || rows->relocations == NULL || rows->exports == NULL)
        return PEF_OUT_OF_MEMORY;
    uint32_t answer = print_libraries(rows->libraries, loader->library_count);
    if (answer == PEF_OK)
        answer = print_imports(rows->imports, loader->import_count, rows->libraries);
    print_entry("main", loader->main_section, loader->main_offset);
    print_entry("init", loader->init_section, loader->init_offset);
    print_entry("term", loader->term_section, loader->term_offset);
    if (answer == PEF_OK)
        answer = print_relocations(rows->relocations, loader->relocation_count);
    return answer == PEF_OK ? print_exports(rows->exports, loader->export_count) : answer;
}

/* Prints all lines of the loader section. */
static uint32_t print_loader(void)
{
    struct pef_loader loader;
    memset(&loader, 0, sizeof loader);
    uint32_t answer = pef_loader(container.at, container.length, &loader);
    if (answer != PEF_OK)
        return answer;
    const struct pef_library library = {.name = PEF_NO_BYTES};
    const struct pef_import import = {.name = PEF_NO_BYTES};
    const struct pef_relocation relocation = {.instructions = PEF_NO_BYTES};
    const struct pef_export export = {.name = PEF_NO_BYTES};
    struct rows rows = {
        make_rows(loader.library_count, &library, sizeof library),
        make_rows(loader.import_count, &import, sizeof import),
        make_rows(loader.relocation_count, &relocation, sizeof relocation),
        make_rows(loader.export_count, &export, sizeof export),
    };
    answer = print_rows(&loader, &rows);
    free(rows.libraries);
    free(rows.imports);
    free(rows.relocations);
    free(rows.exports);
    return answer;
}

static uint32_t print_container(void)
{
    struct pef_header header = {0};
    uint32_t answer = pef_header(container.at, container.length, &header);
    if (answer != PEF_OK)
        return answer;
    printf("container current %u olddef %u oldimp %u date %u\n", header.current_version, header.old_def_version,
           header.old_imp_version, header.date_time_stamp);
    for (size_t number = 0; answer == PEF_OK && number < header.section_count; number++)
        answer = print_section(number);
    return answer == PEF_OK ? print_loader() : answer;
}

int main(int count, char **words)
{
    if (count != 2) {
        fputs("usage: walk FILE\n", stderr);
        return 2;
    }
    size_t length = 0;
    uint8_t *bytes = read_file(words[1], &length);
    if (bytes == NULL) {
        perror(words[1]);
        return 1;
    }
    container.at = bytes;
    container.length = length;
    uint32_t answer = print_container();
    free(bytes);
    if (answer != PEF_OK)
        print_refusal(words[1], answer, 0);
    return answer == PEF_OK ? 0 : 1;
}
