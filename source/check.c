/*
 * Checks what was built on this machine:
 *
 *     check CASES PEF [RUNNER]
 *
 * CASES is the file of cases, which says what the program and the library have to give. PEF is the program, and RUNNER what runs it if this
 * machine can't, such as an emulator. The cases of the library are those for authors of other loaders. The program runs in a folder
 * `check.room`, which is removed at the end. A case whose arguments or files this system can't have is left out, and counted.
 *
 * The file has items, each a word, a length and so many bytes. A case begins with an item `program` or `library`, which has its name.
 */
#if !defined(_WIN32)
#define _POSIX_C_SOURCE 200809L
#endif

#include "pef.h"

#include <errno.h>
#include <fcntl.h>
#include <inttypes.h>
#include <stdio.h>
#include <stdlib.h>
#include <string.h>
#include <sys/stat.h>
#if defined(_WIN32)
#include <direct.h>
#include <io.h>
#include <process.h>
#define chdir _chdir
#define close _close
#define dup _dup
#define dup2 _dup2
#define make_folder(path) _mkdir(path)
#define open _open
#define remove_folder _rmdir
#define unlink _unlink
#else
#include <sys/wait.h>
#include <unistd.h>
#define O_BINARY 0
#define make_folder(path) mkdir(path, 0777)
#define remove_folder rmdir
#endif

#define ROOM "check.room"

enum { MOST_WORDS = 600, MOST_ITEMS = 4000 };

/* --- what cases are made of --- */

struct item {
    char kind[16];
    const uint8_t *bytes;
    size_t length;
};

static struct item items[MOST_ITEMS];
static size_t item_count;

static int passed, failed, left_out;

static bool is_kind(const struct item *item, const char *kind)
{
    return strcmp(item->kind, kind) == 0;
}

static bool has_bytes(const struct item *item, const uint8_t *bytes, size_t length)
{
    return item->length == length && memcmp(item->bytes, bytes, length) == 0;
}

/* The first item of a kind, or NULL. */
static const struct item *find(const char *kind)
{
    for (size_t i = 0; i < item_count; i++)
        if (is_kind(&items[i], kind))
            return &items[i];
    return NULL;
}

/* A copy of an item as text, which stays. */
static char *text_of(const struct item *item)
{
    char *text = malloc(item->length + 1);
    if (text == NULL)
        exit(2);
    memcpy(text, item->bytes, item->length);
    text[item->length] = 0;
    return text;
}

static void report(bool holds, const char *what)
{
    if (holds) {
        passed++;
        return;
    }
    failed++;
    printf("failed: %.*s: %s\n", (int)items[0].length, (const char *)items[0].bytes, what);
}

/* Reads one item. Returns where the next one begins, or NULL if there is none. */
static const uint8_t *read_item(const uint8_t *at, const uint8_t *end, struct item *item)
{
    const uint8_t *space = memchr(at, ' ', (size_t)(end - at));
    const uint8_t *line = memchr(at, '\n', (size_t)(end - at));
    if (space == NULL || line == NULL || (size_t)(space - at) >= sizeof item->kind)
        return NULL;
    memcpy(item->kind, at, (size_t)(space - at));
    item->kind[space - at] = 0;
    item->bytes = line + 1;
    item->length = strtoul((const char *)space, NULL, 10);
    return (size_t)(end - item->bytes) > item->length ? item->bytes + item->length + 1 : NULL;
}

/* --- files --- */

static uint8_t *read_file(const char *path, size_t *length)
{
    FILE *file = fopen(path, "rb");
    uint8_t *bytes = NULL;
    size_t size = 0, got = 0;
    *length = 0;
    do {
        size = size ? 2 * size : 65536;
        bytes = file ? realloc(bytes, size) : NULL;
        if (bytes == NULL)
            break;
        *length += got = fread(bytes + *length, 1, size - *length - 1, file);
    } while (got != 0 && *length == size - 1);
    if (bytes != NULL)
        bytes[*length] = 0;
    if (file != NULL)
        fclose(file);
    return bytes;
}

static bool write_file(const char *path, const struct item *contents)
{
    FILE *file = fopen(path, "wb");
    bool done = file != NULL && fwrite(contents->bytes, 1, contents->length, file) == contents->length;
    if (file != NULL && fclose(file) != 0)
        done = false;
    return done;
}

/* Makes the folders above a path. */
static void make_folders(char *path)
{
    for (char *at = strchr(path, '/'); at != NULL; at = strchr(at + 1, '/')) {
        *at = 0;
        make_folder(path);
        *at = '/';
    }
}

/* Removes a file or a folder, and folders above it that are empty then. */
static void remove_path(char *path)
{
    if (unlink(path) != 0)
        remove_folder(path);
    for (char *at = strrchr(path, '/'); at != NULL; at = strrchr(path, '/')) {
        *at = 0;
        remove_folder(path);
    }
}

/* --- the program --- */

static const char *program, *runner;

#if defined(_WIN32)

/* Windows has one text for all arguments, so those that would have to be quoted are left out. */
static bool can_be_passed(const char *word)
{
    for (const char *at = word; *at; at++)
        if (*at < '!' || *at > '~' || strchr("\"*?", *at))
            return false;
    return *word != 0;
}

static int spawn(char **words)
{
    return (int)_spawnv(_P_WAIT, words[0], (const char *const *)words);
}

#else

static bool can_be_passed(const char *word)
{
    return word != NULL;
}

static int spawn(char **words)
{
    int status = -1;
    const pid_t child = fork();
    if (child == 0) {
        execvp(words[0], words);
        _exit(127);
    }
    return child > 0 && waitpid(child, &status, 0) == child && WIFEXITED(status) ? WEXITSTATUS(status) : -1;
}

#endif

/* Runs the program with these words after its name, its streams being files beside the room. Returns its status, or -1. */
static int run(char **words, int count, const char *out)
{
    static const char *const paths[] = {"../check.in", NULL, "../check.err"};
    char *all[MOST_WORDS + 3];
    int kept[3], n = 0, status;
    if (runner != NULL)
        all[n++] = (char *)(uintptr_t)runner;
    all[n++] = (char *)(uintptr_t)program;
    memcpy(all + n, words, (size_t)count * sizeof *words);
    all[n + count] = NULL;
    fflush(stdout);
    for (int stream = 0; stream < 3; stream++) {
        const char *path = paths[stream] ? paths[stream] : out;
        const int file = stream == 0 ? open(path, O_RDONLY | O_BINARY) : open(path, O_WRONLY | O_CREAT | O_TRUNC | O_BINARY, 0666);
        kept[stream] = dup(stream);
        if (file < 0 || dup2(file, stream) < 0)
            exit(2);
        close(file);
    }
    status = spawn(all);
    for (int stream = 0; stream < 3; stream++) {
        dup2(kept[stream], stream);
        close(kept[stream]);
    }
    return status;
}

/* The words of the case. Returns how many there are, or -1 if they can't be passed here. */
static int take_words(char **words)
{
    int count = 0;
    for (size_t i = 0; i < item_count; i++)
        if (is_kind(&items[i], "word")) {
            words[count] = text_of(&items[i]);
            if (!can_be_passed(words[count++]) || count == MOST_WORDS)
                return -1;
        }
    return count;
}

/* Makes the files of the case in the room, and links and certifies what is to be there. Returns whether it could. */
static bool make_files(void)
{
    bool done = true;
    for (size_t i = 0; done && i + 1 < item_count; i++) {
        char *path = text_of(&items[i]);
        char *link[] = {(char *)(uintptr_t)"link", path, path}, *distances[] = {(char *)(uintptr_t)"distances", text_of(&items[i + 1])};
        if (is_kind(&items[i], "file") || is_kind(&items[i], "linked")) {
            make_folders(path);
            done = write_file(path, &items[i + 1]) && (is_kind(&items[i], "file") || run(link, 3, "../check.out") == 0);
        } else if (is_kind(&items[i], "folder")) {
            make_folders(path);
            done = make_folder(path) == 0;
        } else if (is_kind(&items[i], "certified")) {
            done = run(distances, 2, path) == 0;
        }
        free(distances[1]);
        free(path);
    }
    return done;
}

static void remove_files(void)
{
    for (size_t i = item_count; i-- > 0;)
        if (is_kind(&items[i], "file") || is_kind(&items[i], "linked") || is_kind(&items[i], "folder") || is_kind(&items[i], "certified") || is_kind(&items[i], "after")) {
            char *path = text_of(&items[i]);
            remove_path(path);
            free(path);
        }
}

/* Compares what was written to a file with the items of a kind: all of it, or how it begins and what is in it. */
static bool is_written(const char *path, const char *kind)
{
    size_t length;
    uint8_t *bytes = read_file(path, &length);
    bool holds = bytes != NULL;
    for (size_t i = 0; holds && i < item_count; i++) {
        const struct item *it = &items[i];
        if (strncmp(it->kind, kind, strlen(kind)) != 0)
            continue;
        if (is_kind(it, kind))
            holds = has_bytes(it, bytes, length);
        else if (strcmp(it->kind + strlen(kind), "-begins") == 0)
            holds = length >= it->length && has_bytes(it, bytes, it->length);
        else {
            char *part = text_of(it);
            holds = strstr((const char *)bytes, part) != NULL;
            free(part);
        }
    }
    free(bytes);
    return holds;
}

static bool files_are_right(void)
{
    bool right = true;
    for (size_t i = 0; right && i + 1 < item_count; i++)
        if (is_kind(&items[i], "after") || is_kind(&items[i], "gone")) {
            size_t length;
            char *path = text_of(&items[i]);
            uint8_t *bytes = read_file(path, &length);
            right = is_kind(&items[i], "gone") ? bytes == NULL : bytes != NULL && has_bytes(&items[i + 1], bytes, length);
            free(bytes);
            free(path);
        }
    return right;
}

/* Runs a case of the program in the room. */
static void try_program(void)
{
    char *words[MOST_WORDS];
    const int count = take_words(words);
    if (count < 0 || chdir(ROOM) != 0) {
        left_out++;
        return;
    }
    if (!write_file("../check.in", find("stdin")) || !make_files()) {
        left_out++;
    } else {
        char *wanted = text_of(find("status"));
        const int status = run(words, count, "../check.out");
        const char *wrong = status != atoi(wanted) ? "the status" : !is_written("../check.out", "stdout") ? "the standard output" : NULL;
        if (wrong == NULL)
            wrong = !is_written("../check.err", "stderr") ? "the standard error" : !files_are_right() ? "the files" : NULL;
        report(wrong == NULL, wrong);
        free(wanted);
    }
    remove_files();
    for (int i = 0; i < count; i++)
        free(words[i]);
    if (chdir("..") != 0)
        exit(2);
}

/* --- the library --- */

static char answer[1 << 20];
static size_t answer_length;

static void say(const char *words, struct pef_bytes name, const char *end)
{
    answer_length += (size_t)snprintf(answer + answer_length, sizeof answer - answer_length, "%s%.*s%s", words, (int)name.length, (const char *)name.at, end);
}

static void say_number(const char *words, uint32_t number, const char *end)
{
    answer_length += (size_t)snprintf(answer + answer_length, sizeof answer - answer_length, "%s%08" PRIX32 "%s", words, number, end);
}

static void say_refusal(uint32_t number, const struct pef_names *names)
{
    answer_length += (size_t)snprintf(answer + answer_length, sizeof answer - answer_length, "refused %" PRIu32 "\n", number);
    if (names->fragment.length != 0)
        say("fragment ", names->fragment, "\n");
    if (names->library.length != 0)
        say("library ", names->library, "\n");
    if (names->symbol.length != 0)
        say("symbol ", names->symbol, "\n");
}

/* Writes the exports of the names that the case asks for. */
static uint32_t find_exports(const struct item *container)
{
    uint32_t number = PEF_OK;
    for (size_t i = 0; i < item_count && (number == PEF_OK || number == PEF_NOT_THERE); i++)
        if (is_kind(&items[i], "find")) {
            struct pef_export found = {PEF_NO_BYTES, 0, 0, 0};
            pef_size place = 0;
            number = pef_export_named(container->bytes, container->length, items[i].bytes, items[i].length, &place, &found);
            if (number == PEF_OK) {
                say_number("found ", (uint32_t)found.section, " ");
                say_number("", found.value, "\n");
            } else if (number == PEF_NOT_THERE) {
                say("found nothing\n", (struct pef_bytes)PEF_NO_BYTES, "");
            }
        }
    return number == PEF_NOT_THERE ? (uint32_t)PEF_OK : number;
}

/* Writes where a fragment of a connection is, what its sections hold, and its entries. */
static void say_fragment(struct pef_context *context, uint32_t connection, size_t fragment)
{
    struct pef_bytes name = PEF_NO_BYTES;
    struct pef_fragment_section section;
    struct pef_entries entries;
    pef_size written;
    pef_fragment_name(context, fragment, &name);
    for (size_t number = 0; pef_fragment_section(context, connection, fragment, number, &section) == PEF_OK; number++) {
        uint8_t *bytes = malloc((size_t)section.size + 1);
        if (bytes == NULL || pef_fragment_bytes(context, fragment, number, bytes, (size_t)section.size, &written) != PEF_OK)
            exit(2);
        say("section of ", name, "");
        say_number(" at ", section.address, " ");
        for (size_t i = 0; i < section.size && answer_length < sizeof answer - 200; i++)
            answer_length += (size_t)sprintf(answer + answer_length, "%02X", bytes[i]);
        say("\n", (struct pef_bytes)PEF_NO_BYTES, "");
        free(bytes);
    }
    if (pef_fragment_entries(context, connection, fragment, &entries) != PEF_OK)
        exit(2);
    if (entries.has_main)
        say_number("main ", entries.main, "\n");
    if (entries.has_init)
        say_number("init ", entries.init, "\n");
    if (entries.has_term)
        say_number("term ", entries.term, "\n");
}

/* Writes the fragments of a connection in the order of their initialization. */
static void say_connection(struct pef_context *context, uint32_t connection)
{
    pef_size order[PEF_MAX_FRAGMENTS], count = 0;
    if (pef_init_order(context, connection, order, PEF_MAX_FRAGMENTS, &count) != PEF_OK)
        exit(2);
    for (size_t i = 0; i < count; i++)
        say_fragment(context, connection, (size_t)order[i]);
}

static void prepare(const struct item *root)
{
    struct pef_context context = PEF_NO_CONTEXT;
    struct pef_names names = PEF_NO_NAMES;
    uint32_t connection = 0, number = pef_open(&context, 0x10000000);
    for (size_t i = 0; number == PEF_OK && i + 1 < item_count; i++)
        if (is_kind(&items[i], "fragment"))
            number = pef_add(&context, items[i].bytes, items[i].length, items[i + 1].bytes, items[i + 1].length);
    if (number == PEF_OK)
        number = pef_prepare(&context, root->bytes, root->length, &connection, &names);
    if (number == PEF_OK)
        say_connection(&context, connection);
    else
        say_refusal(number, &names);
    if (number == PEF_OK && pef_close(&context, connection) != PEF_OK)
        exit(2);
    pef_free(&context);
}

/* Asks the library, and compares its answer. */
static void try_library(void)
{
    const struct item *root = find("root"), *container = find("fragment");
    static const struct pef_names no_names = PEF_NO_NAMES;
    struct pef_loader loader;
    answer_length = 0;
    if (root != NULL) {
        prepare(root);
    } else {
        uint32_t number = pef_loader(container[1].bytes, container[1].length, &loader);
        if (number == PEF_OK)
            number = find_exports(container + 1);
        if (number != PEF_OK)
            say_refusal(number, &no_names);
    }
    report(has_bytes(find("answer"), (const uint8_t *)answer, answer_length), answer_length ? answer : "no answer");
}

/* --- all cases --- */

static void try_case(void)
{
    if (item_count != 0 && is_kind(&items[0], "program"))
        try_program();
    else if (item_count != 0)
        try_library();
    item_count = 0;
}

static void try_cases(const uint8_t *bytes, size_t length)
{
    struct item item;
    const uint8_t *at = bytes;
    while ((at = read_item(at, bytes + length, &item)) != NULL) {
        if (is_kind(&item, "program") || is_kind(&item, "library"))
            try_case();
        if (item_count == MOST_ITEMS)
            exit(2);
        items[item_count++] = item;
    }
    try_case();
}

int main(int count, char **words)
{
    static char above[4096];
    size_t length = 0;
    uint8_t *cases = count == 3 || count == 4 ? read_file(words[1], &length) : NULL;
    if (cases == NULL) {
        fputs("usage: check CASES PEF [RUNNER]\n", stderr);
        return 2;
    }
    snprintf(above, sizeof above, words[2][0] == '/' || words[2][1] == ':' ? "%s" : "../%s", words[2]);
    program = above;
    runner = count == 4 ? words[3] : NULL;
    make_folder(ROOM);
    try_cases(cases, length);
    remove_folder(ROOM);
    unlink("check.in");
    unlink("check.out");
    unlink("check.err");
    free(cases);
    if (left_out != 0)
        printf("%d left out, whose arguments or files this system doesn't take\n", left_out);
    printf("%d passed, %d failed\n", passed, failed);
    return failed != 0 || passed == 0;
}
