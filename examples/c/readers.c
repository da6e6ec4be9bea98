/*
 * Reads contexts. `readers` takes steps in contexts over fragments whose scripts are here. After each step it compares the answer, and the
 * memory of the fragments that are present, with what is written by hand. Then it reads contexts that have as much as they may have. What
 * differs is printed, a line each, and the status is then 1.
 *
 * `readers NAME=FILE ..` reads one context in four threads at once: it prepares the first fragment, and makes the struct and all memory
 * of the context read-only before the threads read it by the calls for a `const struct pef_context *`. Each has to read what was
 * read before. A call that writes a byte of the context ends the program by a signal.
 */
#define _DEFAULT_SOURCE
#include "expect.h"
#include "files.h"
#include "told.h"

#include <pthread.h>
#include <stdarg.h>
#include <sys/mman.h>

enum { THREADS = 4, ROUNDS = 20 };

/* How many addresses the memory of the context has, and the struct. */
#define ARENA ((size_t)1 << 30)
#define PAGE ((size_t)1 << 16)

/* --- a heap that can be made read-only, in place of the three functions over malloc that a library has --- */

struct block {
    bool ok;
    void *at;
};

static uint8_t *arena;
static size_t taken;
static bool is_read_only;

static bool is_in_arena(const void *at)
{
    return arena != NULL && (const uint8_t *)at >= arena && (const uint8_t *)at < arena + ARENA;
}

/* A block of the arena; or, if there is none, or while it is read-only, one of malloc. */
struct block rattle_alloc(size_t size, size_t align)
{
    (void)align;
    if (arena == NULL || is_read_only) {
        void *at = malloc(size == 0 ? 1 : size);
        return (struct block){at != NULL, at};
    }
    size_t whole = (size + 16) & ~(size_t)15;
    if (whole < size || whole > ARENA - taken)
        return (struct block){false, NULL};
    taken += whole;
    return (struct block){true, arena + taken - whole};
}

struct block rattle_realloc(void *at, size_t used, size_t size, size_t align)
{
    if (!is_in_arena(at)) {
        void *moved = realloc(at, size == 0 ? 1 : size);
        return (struct block){moved != NULL, moved};
    }
    struct block made = rattle_alloc(size, align);
    if (made.ok)
        memcpy(made.at, at, used < size ? used : size);
    return made;
}

void rattle_dealloc(void *at)
{
    if (!is_in_arena(at))
        free(at);
}

/* What the library from C source calls, if it is compiled with PEF_HOST_MEMORY. */

void *pef_host_malloc(size_t size)
{
    return rattle_alloc(size, 16).at;
}

/* How long the block was isn't said, so bytes after it may be copied, too. */
void *pef_host_realloc(void *at, size_t size)
{
    const size_t used = is_in_arena(at) ? (size_t)(arena + taken - (uint8_t *)at) : 0;
    return rattle_realloc(at, used, size, 16).at;
}

void pef_host_free(void *at)
{
    rattle_dealloc(at);
}

static void *map(size_t size)
{
    void *at = mmap(NULL, size, PROT_READ | PROT_WRITE, MAP_PRIVATE | MAP_ANONYMOUS | MAP_NORESERVE, -1, 0);
    if (at == MAP_FAILED)
        exit(2);
    return at;
}

/* --- steps in a context --- */

static const uint32_t limit = 0x10000000;

/* A fragment: its name, and its script, or its bytes if it has none. Up to two bytes of the container are changed. */
struct scripted {
    const char *name, *script, *bytes;
    struct {
        size_t at;
        uint8_t byte;
    } changes[2];
};

/* What is done, or read. */
enum kind { END, ADDS, PREPARES, CLOSES, RESERVES, NAMED, SECTION, SYMBOL, EXPORT, IMPORT, ENTRIES, ORDER, INIT_ORDER, NEW, RELEASED };

/* A step, and what is told of it. */
struct step {
    enum kind kind;
    const char *name;
    uint32_t numbers[3];
    const char *wanted;
};

/* A number is that of a fragment in its run, of a connection, or what comes next in the call. */
#define ADD(fragment, wanted) {ADDS, NULL, {fragment}, wanted}
#define PREPARE(name, wanted) {PREPARES, name, {0}, wanted}
#define CLOSE(connection, wanted) {CLOSES, NULL, {connection}, wanted}
#define RESERVE(address, size, wanted) {RESERVES, NULL, {address, size}, wanted}
#define READ(kind, wanted, ...) {kind, NULL, {__VA_ARGS__}, wanted}
#define READ_SYMBOL(connection, fragment, name, wanted) {SYMBOL, name, {connection, fragment}, wanted}

/* Steps in a context of its own. The first fragments are there from the start. */
struct run {
    const char *about;
    size_t added;
    bool names_present;
    struct pef_options options;
    struct scripted fragments[6];
    struct step steps[24];
};

#define FRAGMENT(its_name, its_script) {.name = its_name, .script = its_script}
#define RAW_FRAGMENT(its_name, its_bytes) {.name = its_name, .bytes = its_bytes}

/* A library, and two fragments whose word is the address of its word. */
#define LIBRARY "versions 1 0 0\nsection l data process 4 4\nbytes l 0000002A\nexport v data l 0\n"
#define USER "library L 1 0 -\nimport v data strong\nsection a data process 4 4\nfix a 0 import v\n"
#define USERS {FRAGMENT("A", USER), FRAGMENT("B", USER), FRAGMENT("L", LIBRARY)}

/* A fragment that the library is initialized before, with a main entry point and an export. */
#define OWNER "library L 1 0 before\nimport v data strong\nsection a data process 4 8\nfix a 0 import v\nexport own data a 4\nmain a 4\n"

/* Two fragments whose words add the address of the third's. */
#define SHARER_B "versions 1 0 0\nlibrary D 1 0 -\nimport d data strong\nsection b data process 4 4\nfix b 0 import d\nexport b data b 0\n"
#define SHARER_C \
    "versions 1 0 0\nlibrary D 1 0 -\nimport d data strong\nsection c data process 4 4\nbytes c 00000001\nfix c 0 import d\nexport c data c 0\n"
#define SHARED_D "versions 1 0 0\nsection d data process 4 4\nbytes d 000000DD\nexport d data d 0\n"

/* A fragment whose library is weak, and that library. */
#define WEAK "library M 1 0 weak\nimport m data strong\nsection w data process 4 4\nbytes w 00000001\nfix w 0 import m\n"
#define WANTED_M "versions 1 0 0\nsection m data process 4 4\nbytes m 000000DD\nexport m data m 0\n"

/* Fragments with an import of the next, and an export of their own, or one that is a number or the import. */
#define EXPORTS_M(line) "versions 1 0 0\nlibrary L 1 0 -\nimport v data strong\nsection m data process 4 4\n" line
#define PASSES_M EXPORTS_M("reexport u data v\n")
#define PASSES_N "library M 1 0 -\nimport u data strong\nsection n data process 4 4\nreexport u data u\n"
#define EXPORTS_L(line) "versions 1 0 0\nsection l data process 4 8\n" line
#define LATER_L EXPORTS_L("export v data l 4\n")

/* A library of packed data. Of its first section header the image's length and the kind are changed. */
#define PACKED(bytes) "versions 1 0 0\nsection l data process 4 8\nbytes l " bytes "\nexport v data l 0\n"

static const struct run runs[] = {
    {
        .about = "a library that two fragments share", .added = 3,
        .fragments = {FRAGMENT("B", SHARER_B), FRAGMENT("C", SHARER_C), FRAGMENT("D", SHARED_D)},
        .steps = {
            PREPARE("B", "0, B 00010010 00010000, D 00010000 000000DD"),
            PREPARE("C", "1, B 00010010 00010000, C 00010020 00010001, D 00010000 000000DD"),
            CLOSE(0, "closed, C 00010020 00010001, D 00010000 000000DD"),
            PREPARE("D", "2, C 00010020 00010001, D 00010000 000000DD"),
            CLOSE(1, "closed, D 00010000 000000DD"),
            PREPARE("C", "3, C 00010010 00010001, D 00010000 000000DD"),
            CLOSE(2, "closed, C 00010010 00010001, D 00010000 000000DD"),
            PREPARE("B", "4, B 00010020 00010000, C 00010010 00010001, D 00010000 000000DD"),
            CLOSE(3, "closed, B 00010020 00010000, D 00010000 000000DD"),
            PREPARE("B", "5, B 00010020 00010000, D 00010000 000000DD"),
            CLOSE(4, "closed, B 00010020 00010000, D 00010000 000000DD"),
            CLOSE(4, "68 BadConnection, B 00010020 00010000, D 00010000 000000DD"),
            CLOSE(5, "closed"),
            PREPARE("D", "6, D 00010000 000000DD"),
            PREPARE("D", "7, D 00010000 000000DD"),
            CLOSE(6, "closed, D 00010000 000000DD"),
            PREPARE("B", "8, B 00010010 00010000, D 00010000 000000DD"),
            CLOSE(7, "closed, B 00010010 00010000, D 00010000 000000DD"),
            CLOSE(8, "closed"),
            PREPARE("C", "9, C 00010010 00010001, D 00010000 000000DD"),
        },
    },
    {
        .about = "a connection that is open, and closed", .added = 2,
        .fragments = {FRAGMENT("A", OWNER), FRAGMENT("L", LIBRARY)},
        .steps = {
            PREPARE("A", "0, A 00010010 0001000000000000, L 00010000 0000002A"),
            READ_SYMBOL(0, 0, "own", "00010014"),
            READ_SYMBOL(0, 0, "v", "none"),
            READ(ENTRIES, "main 00010014", 0, 0),
            READ(SECTION, "00010010 8 kind 1 share 1", 0, 0, 0),
            READ(SECTION, "none", 0, 0, 1),
            READ(ORDER, "1 0", 0),
            READ(INIT_ORDER, "1 0", 0),
            CLOSE(0, "closed"),
            READ_SYMBOL(0, 0, "own", "none"),
            READ_SYMBOL(0, 0, "v", "none"),
            READ(ENTRIES, "none", 0, 0),
            READ(SECTION, "none", 0, 0, 0),
            READ(SECTION, "none", 0, 0, 1),
            READ(ORDER, "none", 0),
            READ(INIT_ORDER, "none", 0),
        },
    },
    {
        .about = "fragments that are added at any time, of which the first with a name is used",
        .fragments = {
            FRAGMENT("A", OWNER), FRAGMENT("L", LIBRARY), RAW_FRAGMENT("L", "no container"), RAW_FRAGMENT("M", ""),
            RAW_FRAGMENT("L", "no container"),
        },
        .steps = {
            PREPARE("A", "60 RootMissing"),
            ADD(0, "added"),
            ADD(1, "added"),
            ADD(2, "added"),
            PREPARE("A", "0, A 00010010 0001000000000000, L 00010000 0000002A"),
            READ_SYMBOL(0, 0, "own", "00010014"),
            READ_SYMBOL(0, 1, "v", "00010000"),
            READ_SYMBOL(0, 0, "v", "none"),
            READ_SYMBOL(0, 2, "v", "none"),
            READ_SYMBOL(1, 0, "own", "none"),
            READ(SECTION, "00010010 8 kind 1 share 1", 0, 0, 0),
            READ(SECTION, "00010000 4 kind 1 share 1", 0, 1, 0),
            READ(SECTION, "none", 0, 2, 0),
            READ(SECTION, "none", 0, 0, 9),
            READ(SECTION, "none", 1, 0, 0),
            ADD(3, "added, A 00010010 0001000000000000, L 00010000 0000002A"),
            ADD(4, "added, A 00010010 0001000000000000, L 00010000 0000002A"),
            CLOSE(0, "closed"),
            READ(NAMED, "M", 3),
            READ(NAMED, "none", 5),
            PREPARE("A", "1, A 00010010 0001000000000000, L 00010000 0000002A"),
        },
    },
    {
        .about = "fragments that are added as soon as the one before them was prepared", .added = 1,
        .fragments = {FRAGMENT("A", USER), FRAGMENT("L", LIBRARY), FRAGMENT("P", USER)},
        .steps = {
            PREPARE("A", "61 LibraryMissing A L"),
            ADD(1, "added"),
            PREPARE("A", "0, A 00010010 00010000, L 00010000 0000002A"),
            ADD(2, "added, A 00010010 00010000, L 00010000 0000002A"),
            PREPARE("P", "1, A 00010010 00010000, L 00010000 0000002A, P 00010020 00010000"),
            CLOSE(0, "closed, L 00010000 0000002A, P 00010020 00010000"),
        },
    },
    {
        .about = "a library that is added too late", .added = 1,
        .fragments = {FRAGMENT("W", WEAK), FRAGMENT("M", WANTED_M), RAW_FRAGMENT("M", "")},
        .steps = {
            PREPARE("W", "0, W 00010000 00000001"),
            ADD(1, "203 AddedTooLate, W 00010000 00000001"),
            READ(NAMED, "none", 1),
            CLOSE(0, "closed"),
            ADD(1, "added"),
            PREPARE("W", "1, W 00010010 00010001, M 00010000 000000DD"),
            ADD(2, "added, W 00010010 00010001, M 00010000 000000DD"),
        },
    },
    {
        .about = "symbols of connections that are closed, or never were", .added = 3,
        .fragments = USERS,
        .steps = {
            PREPARE("A", "0, A 00010010 00010000, L 00010000 0000002A"),
            PREPARE("B", "1, A 00010010 00010000, B 00010020 00010000, L 00010000 0000002A"),
            CLOSE(0, "closed, B 00010020 00010000, L 00010000 0000002A"),
            PREPARE("A", "2, A 00010010 00010000, B 00010020 00010000, L 00010000 0000002A"),
            PREPARE("L", "3, A 00010010 00010000, B 00010020 00010000, L 00010000 0000002A"),
            READ_SYMBOL(0, 2, "v", "none"),
            READ_SYMBOL(4, 2, "v", "none"),
            READ_SYMBOL(3, 2, "v", "00010000"),
            CLOSE(3, "closed, A 00010010 00010000, B 00010020 00010000, L 00010000 0000002A"),
            READ_SYMBOL(3, 2, "v", "none"),
        },
    },
    {
        .about = "an export of a section", .added = 2,
        .fragments = {FRAGMENT("M", EXPORTS_M("export u data m 0\n")), FRAGMENT("L", LIBRARY)},
        .steps = {PREPARE("M", "0, M 00010010 00000000, L 00010000 0000002A"), READ_SYMBOL(0, 0, "u", "00010010")},
    },
    {
        .about = "an export that is 0", .added = 2,
        .fragments = {FRAGMENT("M", EXPORTS_M("absolute u data 0\n")), FRAGMENT("L", LIBRARY)},
        .steps = {PREPARE("M", "0, M 00010010 00000000, L 00010000 0000002A"), READ_SYMBOL(0, 0, "u", "00000000")},
    },
    {
        .about = "an export that is a number", .added = 2,
        .fragments = {FRAGMENT("M", EXPORTS_M("absolute u data 0x80000001\n")), FRAGMENT("L", LIBRARY)},
        .steps = {PREPARE("M", "0, M 00010010 00000000, L 00010000 0000002A"), READ_SYMBOL(0, 0, "u", "80000001")},
    },
    {
        .about = "an export that is passed on", .added = 2,
        .fragments = {FRAGMENT("M", PASSES_M), FRAGMENT("L", LATER_L)},
        .steps = {PREPARE("M", "0, M 00010010 00000000, L 00010000 0000000000000000"), READ_SYMBOL(0, 0, "u", "00010004")},
    },
    {
        .about = "an export that is passed on twice, of a section", .added = 3,
        .fragments = {FRAGMENT("N", PASSES_N), FRAGMENT("M", PASSES_M), FRAGMENT("L", LATER_L)},
        .steps = {
            PREPARE("N", "0, N 00010020 00000000, M 00010010 00000000, L 00010000 0000000000000000"),
            READ_SYMBOL(0, 0, "u", "00010004"),
        },
    },
    {
        .about = "an export that is passed on twice, and is a number", .added = 3,
        .fragments = {FRAGMENT("N", PASSES_N), FRAGMENT("M", PASSES_M), FRAGMENT("L", EXPORTS_L("absolute v data 0x80000001\n"))},
        .steps = {
            PREPARE("N", "0, N 00010020 00000000, M 00010010 00000000, L 00010000 0000000000000000"),
            READ_SYMBOL(0, 0, "u", "80000001"),
        },
    },
    {
        .about = "an import that two fragments pass on, one to the next", .added = 4,
        .fragments = {
            FRAGMENT("A", "library N 1 0 -\nimport t data strong\nsection a data process 4 4\nfix a 0 import t\n"),
            FRAGMENT("N", "versions 1 0 0\nlibrary M 1 0 -\nimport u data strong\nsection n data process 4 4\nreexport t data u\n"),
            FRAGMENT("M", PASSES_M), FRAGMENT("L", LATER_L),
        },
        .steps = {PREPARE("A", "0, A 00010030 00010004, N 00010020 00000000, M 00010010 00000000, L 00010000 0000000000000000")},
    },
    {
        .about = "a packed library", .added = 2,
        .fragments = {FRAGMENT("A", USER), {.name = "L", .script = PACKED("620102AABB0102"), .changes = {{55, 8}, {64, PEF_KIND_PACKED}}}},
        .steps = {PREPARE("A", "0, A 00010010 00010000, L 00010000 AABB01AABB02AABB")},
    },
    {
        .about = "a packed library with a byte that is no instruction", .added = 2,
        .fragments = {FRAGMENT("A", USER), {.name = "L", .script = PACKED("A2"), .changes = {{55, 1}, {64, PEF_KIND_PACKED}}}},
        .steps = {PREPARE("A", "22 BadOpcode L")},
    },
    /* Ranges are rounded to 16, and apart from one another and from sections, which take whole ranges of 16 bytes. L finds room at 00010010,
     * between two of them, and A and B after the second. What was released is free again. */
    {
        .about = "ranges that are reserved", .added = 3,
        .fragments = USERS,
        .steps = {
            RESERVE(0x00010001, 14, "reserved"),
            RESERVE(0x00010008, 1, "67 NoRoom"),
            RESERVE(0x0001000F, 0, "reserved"),
            RESERVE(0xFFFFFFF0, 16, "reserved"),
            RESERVE(0xFFFFFFF8, 16, "67 NoRoom"),
            RESERVE(0x00010020, 32, "reserved"),
            RESERVE(0x0001001F, 2, "67 NoRoom"),
            RESERVE(0, 0x00010000, "reserved"),
            PREPARE("A", "0, A 00010040 00010010, L 00010010 0000002A"),
            PREPARE("B", "1, A 00010040 00010010, B 00010050 00010010, L 00010010 0000002A"),
            CLOSE(0, "closed, B 00010050 00010010, L 00010010 0000002A"),
            PREPARE("A", "2, A 00010040 00010010, B 00010050 00010010, L 00010010 0000002A"),
            CLOSE(1, "closed, A 00010040 00010010, L 00010010 0000002A"),
            RESERVE(0x00010018, 8, "67 NoRoom, A 00010040 00010010, L 00010010 0000002A"),
            RESERVE(0x00010048, 1, "67 NoRoom, A 00010040 00010010, L 00010010 0000002A"),
            RESERVE(0x00010050, 4, "reserved, A 00010040 00010010, L 00010010 0000002A"),
            PREPARE("B", "3, A 00010040 00010010, B 00010060 00010010, L 00010010 0000002A"),
        },
    },
    {
        .about = "what a connection placed, and what closing it releases", .added = 3,
        .fragments = USERS,
        .steps = {
            PREPARE("A", "0, A 00010010 00010000, L 00010000 0000002A"),
            READ(RELEASED, "0 2", 0),
            PREPARE("B", "1, A 00010010 00010000, B 00010020 00010000, L 00010000 0000002A"),
            READ(NEW, "2 0", 0),
            READ(NEW, "1", 1),
            READ(NEW, "none", 2),
            READ(RELEASED, "0", 0),
            READ(RELEASED, "1", 1),
            CLOSE(0, "closed, B 00010020 00010000, L 00010000 0000002A"),
            READ(RELEASED, "1 2", 1),
            READ(RELEASED, "none", 0),
        },
    },
    {
        .about = "what imports and exports mean", .added = 3,
        .fragments = USERS,
        .steps = {
            PREPARE("A", "0, A 00010010 00010000, L 00010000 0000002A"),
            READ(IMPORT, "fragment 2 section 0 offset 0 at 00010000", 0, 0, 0),
            READ(IMPORT, "none", 0, 0, 1),
            READ(IMPORT, "none", 0, 1, 0),
            READ(IMPORT, "none", 0, 2, 0),
            READ(EXPORT, "00010000", 0, 2, 0),
            READ(EXPORT, "none", 0, 2, 1),
            READ(EXPORT, "none", 0, 1, 0),
            READ(EXPORT, "none", 1, 2, 0),
        },
    },
    {
        .about = "which fragments are present", .added = 6, .names_present = true,
        .fragments = {
            FRAGMENT("A", USER), FRAGMENT("A", ""), FRAGMENT("B", USER), FRAGMENT("L", LIBRARY),
            FRAGMENT("W", "library M 1 0 weak\nimport m data strong\nsection w data process 4 4\nfix w 0 import m\n"),
            FRAGMENT("N", "library M 1 0 -\nimport m data strong\n"),
        },
        .steps = {
            CLOSE(0, "68 BadConnection"),
            PREPARE("N", "61 LibraryMissing N M"),
            PREPARE("A", "0 A L"),
            PREPARE("B", "1 A B L"),
            PREPARE("A", "2 A B L"),
            CLOSE(0, "closed A B L"),
            CLOSE(2, "closed B L"),
            PREPARE("W", "3 B L W"),
            CLOSE(1, "closed W"),
            CLOSE(1, "68 BadConnection W"),
            CLOSE(3, "closed"),
        },
    },
    {
        .about = "sections in pages", .added = 3, .options = {.granule = 4096},
        .fragments = USERS,
        .steps = {
            PREPARE("A", "0, A 00011000 00010000, L 00010000 0000002A"),
            PREPARE("B", "1, A 00011000 00010000, B 00012000 00010000, L 00010000 0000002A"),
        },
    },
    /* A connection counts if it is closed, and not if it was refused. */
    {
        .about = "three connections", .added = 3, .options = {.connections = 3},
        .fragments = USERS,
        .steps = {
            PREPARE("L", "0, L 00010000 0000002A"),
            CLOSE(0, "closed"),
            PREPARE("C", "60 RootMissing"),
            PREPARE("L", "1, L 00010000 0000002A"),
            PREPARE("L", "2, L 00010000 0000002A"),
            PREPARE("C", "69 TooManyConnections, L 00010000 0000002A"),
            CLOSE(1, "closed, L 00010000 0000002A"),
            CLOSE(1, "68 BadConnection, L 00010000 0000002A"),
            CLOSE(2, "closed"),
            PREPARE("L", "69 TooManyConnections"),
        },
    },
    /* Only what is new counts: the library is present the second time. */
    {
        .about = "32 bytes and a step for a preparation", .added = 3, .options = {.bytes = 32, .steps = 1},
        .fragments = USERS,
        .steps = {
            PREPARE("A", "0, A 00010010 00010000, L 00010000 0000002A"),
            PREPARE("B", "1, A 00010010 00010000, B 00010020 00010000, L 00010000 0000002A"),
        },
    },
    {
        .about = "31 bytes and a step for a preparation", .added = 3, .options = {.bytes = 31, .steps = 1},
        .fragments = USERS,
        .steps = {
            PREPARE("A", "75 TooManyBytes A"),
            PREPARE("L", "0, L 00010000 0000002A"),
            PREPARE("A", "1, A 00010010 00010000, L 00010000 0000002A"),
        },
    },
};

/* What is told of a step. */
static char said[512];
static size_t said_length;

static void say(const char *format, ...)
{
    va_list arguments;
    va_start(arguments, format);
    int length = vsnprintf(said + said_length, sizeof said - said_length, format, arguments);
    va_end(arguments);
    if (length < 0 || (size_t)length >= sizeof said - said_length) {
        fprintf(stderr, "too much is told of a step\n");
        exit(2);
    }
    said_length += (size_t)length;
}

static void say_name(struct pef_bytes name)
{
    say("%.*s", (int)name.length, (const char *)name.at);
}

/* Says an answer that isn't PEF_OK. Returns whether it is. */
static bool is_answered(uint32_t answer)
{
    struct pef_bytes name = PEF_NO_BYTES;
    if (answer == PEF_OK)
        return true;
    if (answer == PEF_NOT_THERE) {
        say("none");
    } else {
        EXPECT(pef_name(answer, &name) == PEF_OK);
        say("%u ", (unsigned)answer);
        say_name(name);
    }
    return false;
}

/* The containers of a test. They are freed at its end. */
static struct pef_bytes containers[PEF_MAX_FRAGMENTS];
static size_t container_count;

static struct pef_bytes keep(uint8_t *bytes, size_t length)
{
    if (bytes == NULL || container_count == PEF_MAX_FRAGMENTS)
        exit(2);
    containers[container_count] = (struct pef_bytes){bytes, length};
    return containers[container_count++];
}

static void free_containers(void)
{
    while (container_count > 0)
        free((void *)containers[--container_count].at);
}

/* Links a script of any length. Each container is a block of its own length, as in expect.h. */
static struct pef_bytes linked_long(const char *script)
{
    size_t length = 0, line = 0;
    uint32_t answer = pef_link(TEXT(script), NULL, 0, &length, &line);
    if (answer != PEF_ROOM_TOO_SMALL) {
        fprintf(stderr, "no container of a script: %u, line %zu\n", (unsigned)answer, line);
        exit(2);
    }
    struct pef_bytes container = keep(malloc(length), length);
    EXPECT(pef_link(TEXT(script), (uint8_t *)container.at, length, &length, &line) == PEF_OK && length == container.length);
    return container;
}

/* The container of a fragment. */
static struct pef_bytes container_of(const struct scripted *fragment)
{
    if (fragment->script == NULL) {
        size_t length = strlen(fragment->bytes);
        struct pef_bytes bytes = keep(malloc(length + 1), length);
        memcpy((uint8_t *)bytes.at, fragment->bytes, length);
        return bytes;
    }
    struct pef_bytes bytes = linked_long(fragment->script);
    for (size_t i = 0; i < 2; i++)
        if (fragment->changes[i].at != 0 && fragment->changes[i].at < bytes.length)
            ((uint8_t *)bytes.at)[fragment->changes[i].at] = fragment->changes[i].byte;
    return bytes;
}

static uint32_t add_scripted(struct pef_context *context, const struct scripted *fragment)
{
    struct pef_bytes container = container_of(fragment);
    return pef_add(context, TEXT(fragment->name), BYTES(container));
}

/* Finds a section in memory by some open connection. */
static bool find_section(struct pef_context *context, size_t fragment, size_t number, struct pef_fragment_section *section)
{
    uint32_t connection = 0;
    while (connection < 16 && pef_fragment_section(context, connection, fragment, number, section) != PEF_OK)
        connection++;
    return connection < 16;
}

/* Says the sections of all fragments, each with its address and its bytes. */
static void say_sections(struct pef_context *context)
{
    struct pef_bytes name = PEF_NO_BYTES;
    for (size_t fragment = 0; pef_next_fragment(context, fragment, &fragment) == PEF_OK; fragment++) {
        size_t count = 0;
        EXPECT(pef_fragment_name(context, fragment, &name) == PEF_OK);
        EXPECT(pef_fragment_sections(context, fragment, &count) == PEF_OK);
        for (size_t number = 0; number < count; number++) {
            struct pef_fragment_section section = {0};
            uint8_t bytes[16];
            size_t length = 0;
            EXPECT(find_section(context, fragment, number, &section));
            EXPECT(pef_fragment_bytes(context, fragment, number, bytes, sizeof bytes, &length) == PEF_OK && length == section.size);
            say(", ");
            say_name(name);
            say(" %08X ", (unsigned)section.address);
            for (size_t i = 0; i < length; i++)
                say("%02X", bytes[i]);
        }
    }
}

/* Says which of these names are those of fragments that are present. */
static void say_present(struct pef_context *context)
{
    static const char *const names[] = {"A", "B", "L", "W", "N", "M", ""};
    for (size_t i = 0; i < sizeof names / sizeof names[0]; i++) {
        bool is_present = false;
        EXPECT(pef_is_present(context, TEXT(names[i]), &is_present) == PEF_OK);
        if (is_present)
            say(" %s", names[i]);
    }
}

static void say_prepared(struct pef_context *context, const char *name)
{
    struct pef_names names = PEF_NO_NAMES;
    uint32_t connection = 7;
    if (is_answered(pef_prepare(context, TEXT(name), &connection, &names))) {
        say("%u", (unsigned)connection);
        return;
    }
    const struct pef_bytes each[] = {names.fragment, names.library, names.symbol};
    for (size_t i = 0; i < 3; i++) {
        if (each[i].length == 0)
            continue;
        say(" ");
        say_name(each[i]);
    }
}

/* Says an answer, with a word for PEF_OK. */
static void say_done(uint32_t answer, const char *word)
{
    if (is_answered(answer))
        say("%s", word);
}

/* Takes a step that changes the context, and says its answer. Returns false if it is of another kind. */
static bool take_step(struct pef_context *context, const struct run *run, const struct step *step)
{
    const uint32_t *numbers = step->numbers;
    switch (step->kind) {
    case ADDS:
        say_done(add_scripted(context, &run->fragments[numbers[0]]), "added");
        break;
    case PREPARES:
        say_prepared(context, step->name);
        break;
    case CLOSES:
        say_done(pef_close(context, numbers[0]), "closed");
        break;
    case RESERVES:
        say_done(pef_reserve(context, numbers[0], numbers[1]), "reserved");
        break;
    default:
        return false;
    }
    if (run->names_present)
        say_present(context);
    else
        say_sections(context);
    return true;
}

/* Says the fragments of a list. */
static void say_fragments(struct pef_context *context, enum kind kind, uint32_t connection)
{
    size_t list[PEF_MAX_FRAGMENTS], count = 0;
    uint32_t answer = kind == ORDER      ? pef_fragments(context, connection, list, PEF_MAX_FRAGMENTS, &count)
                    : kind == INIT_ORDER ? pef_init_order(context, connection, list, PEF_MAX_FRAGMENTS, &count)
                    : kind == NEW        ? pef_new_fragments(context, connection, list, PEF_MAX_FRAGMENTS, &count)
                                         : pef_released_by(context, connection, list, PEF_MAX_FRAGMENTS, &count);
    if (is_answered(answer))
        for (size_t i = 0; i < count; i++)
            say(i == 0 ? "%zu" : " %zu", list[i]);
}

static void say_entries(struct pef_context *context, uint32_t connection, size_t fragment)
{
    struct pef_entries entries = {0};
    if (!is_answered(pef_fragment_entries(context, connection, fragment, &entries)))
        return;
    if (entries.has_init)
        say("init %08X", (unsigned)entries.init);
    if (entries.has_main)
        say("main %08X", (unsigned)entries.main);
    if (entries.has_term)
        say("term %08X", (unsigned)entries.term);
}

static void say_target(struct pef_context *context, const uint32_t *numbers)
{
    struct pef_target target = {0};
    if (!is_answered(pef_import_target(context, numbers[0], numbers[1], numbers[2], &target)))
        return;
    if (target.kind == PEF_TARGET_IN_SECTION)
        say("fragment %zu section %u offset %u ", target.fragment, (unsigned)target.section, (unsigned)target.offset);
    say("at %08X", (unsigned)target.address);
}

/* Says what one reader gives. */
static void say_read(struct pef_context *context, const struct step *step)
{
    const uint32_t *numbers = step->numbers;
    struct pef_fragment_section section = {0};
    struct pef_bytes name = PEF_NO_BYTES;
    uint32_t address = 0;
    switch (step->kind) {
    case NAMED:
        if (is_answered(pef_fragment_name(context, numbers[0], &name)))
            say_name(name);
        break;
    case SECTION:
        if (is_answered(pef_fragment_section(context, numbers[0], numbers[1], numbers[2], &section)))
            say("%08X %zu kind %u share %u", (unsigned)section.address, section.size, section.kind, section.share);
        break;
    case SYMBOL:
        if (is_answered(pef_fragment_symbol(context, numbers[0], numbers[1], TEXT(step->name), &address)))
            say("%08X", (unsigned)address);
        break;
    case EXPORT:
        if (is_answered(pef_export_address(context, numbers[0], numbers[1], numbers[2], &address)))
            say("%08X", (unsigned)address);
        break;
    case IMPORT:
        say_target(context, numbers);
        break;
    case ENTRIES:
        say_entries(context, numbers[0], numbers[1]);
        break;
    default:
        say_fragments(context, step->kind, numbers[0]);
    }
}

/* Takes the steps of a run. */
static void test_run(const struct run *run)
{
    struct pef_context context = PEF_NO_CONTEXT;
    struct pef_options options = run->options;
    options.size = sizeof options;
    EXPECT(pef_open_with(&context, &options) == PEF_OK);
    for (size_t i = 0; i < run->added; i++)
        EXPECT(add_scripted(&context, &run->fragments[i]) == PEF_OK);
    for (size_t i = 0; run->steps[i].kind != END; i++) {
        const struct step *step = &run->steps[i];
        said_length = 0;
        said[0] = 0;
        if (!take_step(&context, run, step))
            say_read(&context, step);
        if (strcmp(said, step->wanted) != 0) {
            fprintf(stderr, "%s, step %zu: `%s`, and not `%s`\n", run->about, i, said, step->wanted);
            failures++;
        }
    }
    pef_free(&context);
    free_containers();
}

static void test_runs(void)
{
    for (size_t i = 0; i < sizeof runs / sizeof runs[0]; i++)
        test_run(&runs[i]);
}

/* --- contexts that have as much as they may have --- */

/* A script of any length that is written line after line. */
static char script[3000000];
static size_t script_length;

static void write_line(const char *format, ...)
{
    va_list arguments;
    va_start(arguments, format);
    int length = vsnprintf(script + script_length, sizeof script - script_length, format, arguments);
    va_end(arguments);
    if (length < 0 || (size_t)length >= sizeof script - script_length)
        exit(2);
    script_length += (size_t)length;
}

static void expect_prepared(struct pef_context *context, const char *name)
{
    struct pef_names names = PEF_NO_NAMES;
    uint32_t connection = 7;
    EXPECT(pef_prepare(context, TEXT(name), &connection, &names) == PEF_OK && connection == 0);
}

static char fragment_names[PEF_MAX_FRAGMENTS][12];

static void add_numbered(struct pef_context *context, size_t number, struct pef_bytes container)
{
    snprintf(fragment_names[number], sizeof fragment_names[number], "f%u", (unsigned)number);
    EXPECT(pef_add(context, TEXT(fragment_names[number]), BYTES(container)) == PEF_OK);
}

/* The last of as many fragments as a context may have is the first of the closure, and the last that is released. */
static void expect_reversed(struct pef_context *context)
{
    size_t order[PEF_MAX_FRAGMENTS], init_order[PEF_MAX_FRAGMENTS], new_fragments[PEF_MAX_FRAGMENTS], released[PEF_MAX_FRAGMENTS], count = 0;
    EXPECT(pef_fragments(context, 0, order, PEF_MAX_FRAGMENTS, &count) == PEF_OK && count == PEF_MAX_FRAGMENTS);
    EXPECT(pef_init_order(context, 0, init_order, PEF_MAX_FRAGMENTS, &count) == PEF_OK && count == PEF_MAX_FRAGMENTS);
    EXPECT(pef_new_fragments(context, 0, new_fragments, PEF_MAX_FRAGMENTS, &count) == PEF_OK && count == PEF_MAX_FRAGMENTS);
    EXPECT(pef_released_by(context, 0, released, PEF_MAX_FRAGMENTS, &count) == PEF_OK && count == PEF_MAX_FRAGMENTS);
    size_t right = 0;
    for (size_t i = 0; i < PEF_MAX_FRAGMENTS; i++)
        right += order[i] == PEF_MAX_FRAGMENTS - 1 - i && init_order[i] == order[i] && new_fragments[i] == order[i] && released[i] == i;
    EXPECT(right == PEF_MAX_FRAGMENTS);
}

/* The word of each fragment is the address of the next one's. The library of the last is weak and missing, so its word is 0. They lie
 * side by side, the last first. */
static void test_most_fragments(void)
{
    struct pef_context context = PEF_NO_CONTEXT;
    EXPECT(pef_open(&context, limit) == PEF_OK);
    for (size_t i = 0; i < PEF_MAX_FRAGMENTS; i++) {
        script_length = 0;
        write_line("library f%zu 0 0 weak\nimport v data strong\nsection s data process 4 4\nfix s 0 import v\nexport v data s 0\n", i + 1);
        add_numbered(&context, i, linked_long(script));
    }
    expect_prepared(&context, "f0");
    expect_reversed(&context);
    uint32_t next = 0;
    for (size_t i = PEF_MAX_FRAGMENTS; i-- > 0;) {
        struct pef_fragment_section section = {0};
        const uint8_t wanted[] = {next >> 24, next >> 16 & 0xFF, next >> 8 & 0xFF, next & 0xFF};
        uint8_t word[4] = {7};
        size_t length = 0;
        EXPECT(pef_fragment_section(&context, 0, i, 0, &section) == PEF_OK);
        EXPECT(section.address == 0x00010000 + 16 * (PEF_MAX_FRAGMENTS - 1 - i) && section.size == 4);
        EXPECT(pef_fragment_bytes(&context, i, 0, word, sizeof word, &length) == PEF_OK && memcmp(word, wanted, sizeof word) == 0);
        next = section.address;
    }
    pef_free(&context);
    free_containers();
}

/* Each of as many fragments as a context may have needs all of them. A context takes no further one. */
static void test_complete_graph(void)
{
    struct pef_context context = PEF_NO_CONTEXT;
    struct pef_bytes name = PEF_NO_BYTES;
    script_length = 0;
    for (size_t i = 0; i < PEF_MAX_FRAGMENTS; i++)
        write_line("library f%zu 0 0 -\n", i);
    struct pef_bytes container = linked_long(script);
    EXPECT(pef_open(&context, limit) == PEF_OK);
    for (size_t i = 0; i < PEF_MAX_FRAGMENTS; i++)
        add_numbered(&context, i, container);
    EXPECT(pef_add(&context, TEXT("f256"), BYTES(container)) == PEF_STORE_FULL);
    EXPECT(pef_fragment_name(&context, 255, &name) == PEF_OK && is_named(name, "f255"));
    EXPECT(pef_fragment_name(&context, 256, &name) == PEF_NOT_THERE);
    expect_prepared(&context, "f0");
    expect_reversed(&context);
    pef_free(&context);
    free_containers();
}

/* As many imports, libraries and exports as a script may have (docs/SCRIPTS.md). */
enum { IMPORTS = 65536, LIBRARIES = 4096, EXPORTS = 16383 };

/* All imports are weak and of the first library, which exports the first of them. All other libraries are weak and missing. */
static void test_most_imports(void)
{
    struct pef_context context = PEF_NO_CONTEXT;
    EXPECT(pef_open(&context, limit) == PEF_OK);
    script_length = 0;
    write_line("library L 0 0 -\n");
    for (unsigned i = 0; i < IMPORTS; i++)
        write_line("import e%u data weak\n", i);
    for (unsigned i = 1; i < LIBRARIES; i++)
        write_line("library l%u 0 0 weak\n", i);
    struct pef_bytes container = linked_long(script);
    EXPECT(pef_add(&context, TEXT("A"), BYTES(container)) == PEF_OK);
    script_length = 0;
    write_line("section d data process 4 16384\n");
    for (unsigned i = 0; i < EXPORTS; i++)
        write_line("export e%u data d %u\n", i, i);
    container = linked_long(script);
    EXPECT(pef_add(&context, TEXT("L"), BYTES(container)) == PEF_OK);
    expect_prepared(&context, "A");
    size_t order[2] = {7, 7}, count = 0;
    EXPECT(pef_fragments(&context, 0, order, 2, &count) == PEF_OK && count == 2 && order[0] == 1 && order[1] == 0);
    for (uint32_t i = 0; i < IMPORTS; i++) {
        struct pef_target it = {7, 7, 7, 7, 7};
        EXPECT(pef_import_target(&context, 0, 0, i, &it) == PEF_OK);
        if (i < EXPORTS)
            EXPECT(it.kind == PEF_TARGET_IN_SECTION && it.fragment == 1 && it.section == 0 && it.offset == i && it.address == 0x00010000 + i);
        else
            EXPECT(it.kind == PEF_TARGET_MISSING && it.fragment == 0 && it.section == 0 && it.offset == 0 && it.address == 0);
    }
    struct pef_target none = {7, 7, 7, 7, 7};
    EXPECT(pef_import_target(&context, 0, 0, IMPORTS, &none) == PEF_NOT_THERE && none.kind == 7);
    pef_free(&context);
    free_containers();
}

/* Eight sections of the greatest length. The last word of each is its own address. */
static void test_most_memory(void)
{
    enum { SECTIONS = 8, TOTAL = 0x1000000 };
    struct pef_context context = PEF_NO_CONTEXT;
    uint8_t *bytes = malloc(TOTAL);
    script_length = 0;
    for (unsigned i = 0; i < SECTIONS; i++)
        write_line("section s%u data process 4 %u\n", i, (unsigned)TOTAL);
    for (unsigned i = 0; i < SECTIONS; i++)
        write_line("fix s%u %u section s%u\n", i, (unsigned)TOTAL - 4, i);
    struct pef_bytes container = linked_long(script);
    EXPECT(bytes != NULL && pef_open(&context, limit) == PEF_OK);
    EXPECT(pef_add(&context, TEXT("G"), BYTES(container)) == PEF_OK);
    expect_prepared(&context, "G");
    for (uint32_t i = 0; bytes != NULL && i < SECTIONS; i++) {
        struct pef_fragment_section section = {0};
        uint32_t wanted = 0x00010000 + i * TOTAL;
        size_t length = 0;
        EXPECT(pef_fragment_section(&context, 0, 0, i, &section) == PEF_OK && section.address == wanted && section.size == TOTAL);
        EXPECT(pef_fragment_bytes(&context, 0, i, bytes, TOTAL, &length) == PEF_OK && length == TOTAL);
        EXPECT(bytes[TOTAL - 4] == wanted >> 24 && bytes[TOTAL - 3] == (wanted >> 16 & 0xFF));
        EXPECT(bytes[TOTAL - 2] == (wanted >> 8 & 0xFF) && bytes[TOTAL - 1] == (wanted & 0xFF));
    }
    free(bytes);
    pef_free(&context);
    free_containers();
}

/* --- threads --- */

/* What one thread reads. */
struct work {
    struct told told;
    bool is_done;
};

static struct pef_context *context;
static uint32_t connection;
static struct work alone, works[THREADS];

/* Tells an export with where it ends, by its number and by its name, and where its address is. */
static void tell_export(struct told *told, const struct pef_context *from, size_t fragment, size_t number)
{
    struct pef_fragment_export export = {.number = 7}, named = {.number = 7};
    struct pef_location location = {.connection = 7};
    tell_number(told, pef_fragment_export(from, connection, fragment, number, &export));
    tell_number(told, pef_fragment_export_named(from, connection, fragment, export.name.at, export.name.length, &named));
    tell(told, &named.number, sizeof named.number);
    tell_number(told, pef_at(from, export.target.address, &location));
    tell(told, &location.nearest.number, sizeof location.nearest.number);
}

/* Tells what a fragment's imports mean, and the addresses of its exports, by their numbers and by their names. */
static void tell_symbols(struct told *told, const struct pef_context *from, size_t fragment)
{
    struct pef_bytes container = fragments[fragment].container;
    struct pef_loader loader = {0};
    struct pef_export export;
    size_t count = 0;
    tell_number(told, pef_loader(container.at, container.length, &loader));
    for (size_t i = 0; i <= loader.import_count; i++) {
        struct pef_target target = {0};
        tell_number(told, pef_import_target(from, connection, fragment, i, &target));
        tell_number(told, target.kind);
        tell(told, &target.fragment, sizeof target.fragment);
        tell_number(told, target.section);
        tell_number(told, target.offset);
        tell_number(told, target.address);
    }
    for (size_t i = 0; i <= loader.export_count; i++) {
        uint32_t numbered = 0, named = 0;
        tell_number(told, pef_export_address(from, connection, fragment, i, &numbered));
        tell_number(told, numbered);
        if (pef_exports(container.at, container.length, i, &export, 1, &count) == PEF_OK && count == 1)
            tell_number(told, pef_fragment_symbol(from, connection, fragment, export.name.at, export.name.length, &named));
        tell_number(told, named);
        tell_export(told, from, fragment, i);
    }
    tell_number(told, pef_fragment_exports(from, connection, fragment, &count));
    tell(told, &count, sizeof count);
    tell_number(told, pef_fragment_import_named(from, connection, fragment, TEXT("v"), &count));
    tell(told, &count, sizeof count);
}

/* Tells how many libraries a context lacks, of one, and the stub of a library that no fragment names. */
static bool tell_stub(struct told *told, const struct pef_context *from)
{
    const struct pef_stub_options options = PEF_NUMBERED_STUBS;
    struct pef_lacking lacking = {PEF_NO_BYTES, false};
    uint8_t stub[1024];
    size_t count = 7, symbols = 7, written = 0;
    bool is_told = pef_lacking(from, 0, &lacking, 1, &count) == PEF_OK
                   && pef_stub(from, TEXT("no library"), &options, stub, sizeof stub, &written, &symbols) == PEF_OK && symbols == 0;
    tell(told, &count, sizeof count);
    tell(told, stub, written);
    return is_told;
}

/* Tells everything that a context says of the connection. Returns whether all calls answered. */
static bool tell_all(struct told *told, const struct pef_context *from)
{
    size_t places[PEF_MAX_FRAGMENTS], count = 0;
    bool is_present = false;
    bool is_told = tell_connection(told, from, connection);
    is_told = is_told && pef_new_fragments(from, connection, places, PEF_MAX_FRAGMENTS, &count) == PEF_OK;
    tell(told, places, count * sizeof places[0]);
    for (size_t i = 0; is_told && i < count; i++)
        tell_symbols(told, from, places[i]);
    is_told = is_told && pef_released_by(from, connection, places, PEF_MAX_FRAGMENTS, &count) == PEF_OK;
    tell(told, places, count * sizeof places[0]);
    is_told = is_told && pef_is_present(from, fragments[0].name.at, fragments[0].name.length, &is_present) == PEF_OK && is_present;
    is_told = is_told && pef_next_fragment(from, 0, &count) == PEF_OK;
    tell(told, &count, sizeof count);
    return is_told && tell_stub(told, from);
}

static void *run(void *argument)
{
    struct work *work = argument;
    work->is_done = true;
    for (size_t round = 0; round < ROUNDS; round++)
        work->is_done = tell_all(&work->told, context) && is_same(&work->told, &alone.told) && work->is_done;
    return NULL;
}

/* Reads in all threads, and counts those that didn't read what was read before. */
static size_t read_in_threads(void)
{
    pthread_t threads[THREADS];
    size_t started = 0, wrong = 0;
    while (started < THREADS && pthread_create(&threads[started], NULL, run, &works[started]) == 0)
        started++;
    for (size_t i = 0; i < started; i++)
        wrong += pthread_join(threads[i], NULL) != 0 || !works[i].is_done;
    return wrong + THREADS - started;
}

/* Whether readers give the same by a copy of the struct, and as the library has them: a name in brackets is no macro. */
static bool is_alike(void)
{
    size_t a[PEF_MAX_FRAGMENTS], b[PEF_MAX_FRAGMENTS], a_count = 0, b_count = 0;
    bool is_same_order = (pef_init_order)(context, connection, a, PEF_MAX_FRAGMENTS, &a_count) == PEF_OK
                         && pef_init_order(context, connection, b, PEF_MAX_FRAGMENTS, &b_count) == PEF_OK && a_count == b_count
                         && memcmp(a, b, a_count * sizeof a[0]) == 0;
    return is_same_order && (pef_fragments)(context, connection + 1, a, PEF_MAX_FRAGMENTS, &a_count) == PEF_NOT_THERE
           && pef_fragments(context, connection + 1, b, PEF_MAX_FRAGMENTS, &b_count) == PEF_NOT_THERE;
}

/* Reads a context over the fragments of some words. Returns the status. */
static int read_files(int count, char **words)
{
    struct pef_names names = PEF_NO_NAMES;
    const struct pef_context closed = PEF_NO_CONTEXT;
    size_t sections = 7;
    arena = map(ARENA);
    context = map(PAGE);
    if (!read_fragments(count, words) || open_all(context, limit) != PEF_OK || prepare_first(context, &connection, &names) != PEF_OK)
        return 2;
    if (!tell_all(&alone.told, context) || !is_alike() || pef_fragment_sections(&closed, 0, &sections) != PEF_NOT_OPEN || sections != 7)
        return 1;
    if (mprotect(arena, ARENA, PROT_READ) != 0 || mprotect(context, PAGE, PROT_READ) != 0)
        return 2;
    is_read_only = true;
    failures = read_in_threads();
    is_read_only = false;
    if (mprotect(arena, ARENA, PROT_READ | PROT_WRITE) != 0 || mprotect(context, PAGE, PROT_READ | PROT_WRITE) != 0)
        return 2;
    failures += pef_close(context, connection) != PEF_OK;
    pef_free(context);
    printf("%zu bytes read by %d threads, %zu failures\n", alone.told.length, THREADS, failures);
    return failures == 0 ? 0 : 1;
}

int main(int count, char **words)
{
    if (count > 1)
        return read_files(count - 1, words + 1);
    test_runs();
    test_most_fragments();
    test_complete_graph();
    test_most_imports();
    test_most_memory();
    printf("%zu failures\n", failures);
    return failures == 0 ? 0 : 1;
}
