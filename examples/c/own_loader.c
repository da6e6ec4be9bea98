/*
 * Loads fragments without a context: own_loader NAME=FILE .. prints the memory that load.c prints, by the calls that keep nothing.
 * Where libraries are found, where sections lie, and how words are relocated are its own affair: a host puts its own rules there.
 */
#include "printed.h"

enum { FIRST_ADDRESS = 0x10000, LIMIT = 0x10000000, GRANULE = 16, LONGEST_CHAIN = 65536 };

/* The library of an import that is missing, and may be. */
#define ABSENT SIZE_MAX

struct placed {
    uint8_t *bytes;
    uint32_t address;
    size_t size;
};

/* What is known of a fragment that is needed, beside its name and its container. */
struct loaded {
    struct pef_header header;
    struct pef_loader loader;
    struct pef_library *libraries;
    struct pef_import *imports;
    /* The fragment of each library, and the address of each import. */
    size_t *found;
    uint32_t *addresses;
    struct placed *sections;
    bool is_met;
};

static struct loaded all[PEF_MAX_FRAGMENTS];

/* The fragments that are needed, each after its libraries. */
static size_t order[PEF_MAX_FRAGMENTS], order_count;

/* The two arguments that name a fragment's container. */
#define CONTAINER(fragment) fragments[fragment].container.at, fragments[fragment].container.length

static void *rows(size_t count, size_t size)
{
    return calloc(count == 0 ? 1 : count, size);
}

/* Reads the header and the tables of a fragment, each once. */
static uint32_t read_fragment(size_t fragment)
{
    struct loaded *it = &all[fragment];
    pef_size count;
    uint32_t answer = pef_header(CONTAINER(fragment), &it->header);
    if (answer == PEF_OK)
        answer = pef_loader(CONTAINER(fragment), &it->loader);
    if (answer != PEF_OK)
        return answer;
    it->libraries = rows(it->loader.library_count, sizeof *it->libraries);
    it->imports = rows(it->loader.import_count, sizeof *it->imports);
    it->found = rows(it->loader.library_count, sizeof *it->found);
    it->addresses = rows(it->loader.import_count, sizeof *it->addresses);
    it->sections = rows(it->header.instantiated_section_count, sizeof *it->sections);
    if (it->libraries == NULL || it->imports == NULL || it->found == NULL || it->addresses == NULL || it->sections == NULL)
        return PEF_OUT_OF_MEMORY;
    answer = pef_libraries(CONTAINER(fragment), 0, it->libraries, it->loader.library_count, &count);
    return answer == PEF_OK ? pef_imports(CONTAINER(fragment), 0, it->imports, it->loader.import_count, &count) : answer;
}

/* Compares what a fragment needs of a library with what that serves (docs/RULES.md). */
static uint32_t compare_versions(const struct pef_library *needed, const struct pef_header *has)
{
    if (needed->current_version > has->current_version)
        return needed->old_imp_version <= has->current_version ? PEF_OK : PEF_IMPLEMENTATION_TOO_OLD;
    if (needed->current_version < has->current_version)
        return needed->current_version >= has->old_def_version ? PEF_OK : PEF_IMPLEMENTATION_TOO_NEW;
    return PEF_OK;
}

static uint32_t walk(size_t fragment);

/* Finds a library by its name, and walks to it. A weak one may be absent. */
static uint32_t find_library(const struct pef_library *needed, size_t *found)
{
    const bool is_weak = (needed->options & PEF_LIBRARY_WEAK) != 0;
    size_t place = 0;
    while (place < fragment_count && !(fragments[place].name.length == needed->name.length && memcmp(fragments[place].name.at, needed->name.at, needed->name.length) == 0))
        place++;
    *found = ABSENT;
    if (place == fragment_count)
        return is_weak ? PEF_OK : PEF_LIBRARY_MISSING;
    uint32_t answer = all[place].libraries != NULL ? PEF_OK : read_fragment(place);
    if (answer != PEF_OK)
        return answer;
    answer = compare_versions(needed, &all[place].header);
    if (answer != PEF_OK)
        return is_weak ? PEF_OK : answer;
    *found = place;
    return all[place].is_met ? PEF_OK : walk(place);
}

/* Adds a fragment that was read, after its libraries. */
static uint32_t walk(size_t fragment)
{
    uint32_t answer = PEF_OK;
    all[fragment].is_met = true;
    for (size_t i = 0; answer == PEF_OK && i < all[fragment].loader.library_count; i++)
        answer = find_library(&all[fragment].libraries[i], &all[fragment].found[i]);
    order[order_count++] = fragment;
    return answer;
}

/* Finds a section that has one of these addresses. */
static const struct placed *in_the_way(uint64_t from, uint64_t to)
{
    for (size_t i = 0; i < order_count; i++) {
        for (size_t k = 0; k < all[order[i]].header.instantiated_section_count; k++) {
            const struct placed *it = &all[order[i]].sections[k];
            if (it->bytes != NULL && it->address < to && from < it->address + (uint64_t)(it->size == 0 ? 1 : it->size))
                return it;
        }
    }
    return NULL;
}

static uint64_t rounded(uint64_t number, uint64_t multiple)
{
    return (number + multiple - 1) / multiple * multiple;
}

/* Places a section at the lowest address that is free, and fills it. */
static uint32_t place_section(size_t fragment, size_t number)
{
    struct placed *it = &all[fragment].sections[number];
    struct pef_section section;
    struct pef_bytes raw;
    uint32_t answer = pef_section(CONTAINER(fragment), number, &section, &raw);
    if (answer != PEF_OK)
        return answer;
    const uint64_t multiple = section.alignment > 4 ? (uint64_t)1 << section.alignment : GRANULE;
    const uint64_t size = rounded(section.total_size == 0 ? 1 : section.total_size, GRANULE);
    uint64_t address = rounded(FIRST_ADDRESS, multiple);
    for (const struct placed *other; address + size <= LIMIT && (other = in_the_way(address, address + size)) != NULL;)
        address = rounded(rounded(other->address + (uint64_t)(other->size == 0 ? 1 : other->size), GRANULE), multiple);
    if (address + size > LIMIT)
        return PEF_NO_ROOM;
    it->bytes = rows(section.total_size, 1);
    if (it->bytes == NULL)
        return PEF_OUT_OF_MEMORY;
    it->address = (uint32_t)address;
    it->size = section.total_size;
    if (section.kind == PEF_KIND_PACKED)
        return pef_expand(raw.at, raw.length, it->bytes, section.unpacked_size);
    memcpy(it->bytes, raw.at, section.unpacked_size);
    return PEF_OK;
}

/* Finds the address of an import. An export may pass on an import of its own fragment. */
static uint32_t resolve(size_t fragment, size_t number, uint32_t *address)
{
    *address = 0;
    for (int i = 0; i < LONGEST_CHAIN; i++) {
        const struct pef_import *import = &all[fragment].imports[number];
        const size_t library = all[fragment].found[import->library];
        struct pef_export found;
        if (library == ABSENT)
            return PEF_OK;
        /* To look up many names, read all exports once, and hash them. */
        pef_size place = 0;
        uint32_t answer = pef_export_named(CONTAINER(library), import->name.at, import->name.length, &place, &found);
        if (answer == PEF_NOT_THERE)
            return import->weak ? PEF_OK : PEF_SYMBOL_MISSING;
        if (answer != PEF_OK)
            return answer;
        if (found.section != PEF_REEXPORT) {
            *address = found.value + (found.section == PEF_ABSOLUTE ? 0 : all[library].sections[found.section].address);
            return PEF_OK;
        }
        fragment = library;
        number = found.value;
    }
    return PEF_REEXPORT_LOOP;
}

/* Adds an address to a word. */
static uint32_t relocate_word(const struct loaded *it, struct placed *section, const struct pef_fixup *fixup)
{
    const bool is_import = fixup->kind == PEF_FIXUP_IMPORT;
    if (fixup->number >= (is_import ? it->loader.import_count : it->header.instantiated_section_count))
        return is_import ? PEF_RELOC_IMPORT_OUTSIDE : PEF_RELOC_SECTION_OUTSIDE;
    if (section->size < 4 || fixup->offset > section->size - 4)
        return PEF_RELOC_WORD_OUTSIDE;
    uint8_t *word = section->bytes + fixup->offset;
    uint32_t value = is_import ? it->addresses[fixup->number] : it->sections[fixup->number].address;
    value += (uint32_t)word[0] << 24 | (uint32_t)word[1] << 16 | (uint32_t)word[2] << 8 | word[3];
    for (int i = 0; i < 4; i++)
        word[i] = (uint8_t)(value >> (24 - 8 * i));
    return PEF_OK;
}

/* Runs the program of a relocation header, some additions at a time. */
static uint32_t relocate(size_t fragment, size_t header, uint32_t section)
{
    static struct pef_fixup fixups[4096];
    size_t from = 0;
    pef_size count = 0;
    uint32_t answer;
    do {
        answer = pef_fixups(CONTAINER(fragment), header, from, fixups, 4096, &count);
        for (size_t i = 0; answer == PEF_OK && i < count; i++)
            answer = relocate_word(&all[fragment], &all[fragment].sections[section], &fixups[i]);
        from += count;
    } while (answer == PEF_OK && count == 4096);
    return answer;
}

static uint32_t relocate_fragment(size_t fragment)
{
    struct pef_relocation relocation;
    pef_size count;
    uint32_t answer = PEF_OK;
    for (size_t i = 0; answer == PEF_OK && i < all[fragment].loader.relocation_count; i++) {
        answer = pef_relocations(CONTAINER(fragment), i, &relocation, 1, &count);
        if (answer == PEF_OK)
            answer = relocate(fragment, i, relocation.section);
    }
    return answer;
}

/* Does for each fragment that is needed what comes after the walk. */
static uint32_t load(void)
{
    uint32_t answer = read_fragment(0);
    if (answer == PEF_OK)
        answer = walk(0);
    for (size_t i = 0; answer == PEF_OK && i < order_count; i++)
        for (size_t k = 0; answer == PEF_OK && k < all[order[i]].header.instantiated_section_count; k++)
            answer = place_section(order[i], k);
    for (size_t i = 0; answer == PEF_OK && i < order_count; i++)
        for (size_t k = 0; answer == PEF_OK && k < all[order[i]].loader.import_count; k++)
            answer = resolve(order[i], k, &all[order[i]].addresses[k]);
    for (size_t i = 0; answer == PEF_OK && i < order_count; i++)
        answer = relocate_fragment(order[i]);
    return answer;
}

static void print_fragment(size_t fragment)
{
    fputs("fragment ", stdout);
    print_name(fragments[fragment].name);
    putchar('\n');
    for (size_t k = 0; k < all[fragment].header.instantiated_section_count; k++)
        print_memory(k, all[fragment].sections[k].address, all[fragment].sections[k].bytes, all[fragment].sections[k].size);
}

int main(int count, char **words)
{
    if (!read_fragments(count - 1, words + 1)) {
        fputs("usage: own_loader NAME=FILE ..\n", stderr);
        return 2;
    }
    const uint32_t answer = load();
    for (size_t i = 0; answer == PEF_OK && i < order_count; i++)
        print_fragment(order[i]);
    if (answer == PEF_OK && all[0].loader.main_section != PEF_NO_ENTRY)
        printf("main %08X\n", (unsigned)(all[0].sections[all[0].loader.main_section].address + all[0].loader.main_offset));
    if (answer != PEF_OK)
        print_refusal(words[1], answer, 0);
    return answer == PEF_OK ? 0 : 1;
}
