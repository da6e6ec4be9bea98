/*
 * The system's routines: what a program reaches through the imports of stub libraries.
 *
 * A stub's export is a number, here an address among the traps. At it the machine has a transition vector, which leads to an
 * address at which the machine stops, and `catch_call` does what is asked.
 */
#include "emulator.h"

#include <stdio.h>
#include <string.h>

/* Numbers of errors, as in Apple's MacErrors.h. */
enum {
    NO_ERROR = 0,
    BAD_CONNECTION = -2801, /* cfragConnectionIDErr */
    NO_SYMBOL = -2802,      /* cfragNoSymbolErr */
    NO_LIBRARY = -2804,     /* cfragNoLibraryErr */
    UNRESOLVED = -2807,     /* cfragUnresolvedErr */
};

/* Prints a line. */
static void debug_string(void)
{
    uint8_t text[256];
    struct pef_bytes line = text_at(argument(0), text);
    if (!is_stopped())
        printf("%.*s\n", (int)line.length, (const char *)line.at);
}

/* No time goes by in this machine. */
static void tick_count(void)
{
    give_back(1234);
}

/* GetSharedLibrary(name, architecture, flags, &connection, &main, message): the flags are taken as kReferenceCFrag, and the message
 * stays as it is. */
static void get_shared_library(void)
{
    uint8_t text[256];
    uint32_t connection, connection_to = argument(3), main_to = argument(4);
    struct pef_bytes name = text_at(argument(0), text);
    uint32_t answer = is_stopped() ? PEF_ROOT_MISSING : prepare_fragment(name, &connection);
    if (answer == PEF_OK) {
        initialize(connection);
        put_word(connection_to, connection);
        put_word(main_to, main_of(connection));
    }
    give_back(answer == PEF_OK ? NO_ERROR : answer == PEF_ROOT_MISSING ? NO_LIBRARY : UNRESOLVED);
}

/* FindSymbol(connection, name, &address, &class) */
static void find_symbol(void)
{
    uint8_t text[256], symbol_class = 0;
    uint32_t address = 0;
    struct pef_bytes name = text_at(argument(1), text);
    bool is_found = !is_stopped() && find_export(argument(0), name, &address, &symbol_class);
    if (is_found) {
        put_word(argument(2), address);
        put_byte(argument(3), symbol_class);
    }
    give_back(is_found ? NO_ERROR : NO_SYMBOL);
}

/* CloseConnection(&connection) */
static void close_one(void)
{
    bool was_open = close_connection(word_at(argument(0)));
    give_back(was_open ? NO_ERROR : BAD_CONNECTION);
}

static const struct {
    const char *name;
    void (*routine)(void);
} routines[] = {
    {"DebugStr", debug_string},        {"TickCount", tick_count},          {"GetSharedLibrary", get_shared_library},
    {"FindSymbol", find_symbol},       {"CloseConnection", close_one},
};

/* A trap: the name of a stub's export, and the routine, unless this program has none. */
static struct {
    struct pef_bytes name;
    void (*routine)(void);
} traps[TRAPS_SIZE / 16];

void make_trap(const struct pef_export *it)
{
    size_t number = (it->value - TRAPS) / 16;
    if (it->section != PEF_ABSOLUTE || it->symbol_class != PEF_CLASS_TVECTOR)
        return;
    if (it->value < TRAPS || number >= TRAPS_SIZE / 16 || it->value % 16 != 0)
        return;
    put_trap(it->value);
    traps[number].name = it->name;
    for (size_t i = 0; i < sizeof routines / sizeof *routines; i++)
        if (strlen(routines[i].name) == it->name.length && memcmp(routines[i].name, it->name.at, it->name.length) == 0)
            traps[number].routine = routines[i].routine;
}

void catch_call(uint32_t address)
{
    size_t number = (address - TRAPS) / 16;
    if (address % 16 != 8 || traps[number].name.at == NULL)
        stop("no code at", address);
    else if (traps[number].routine != NULL)
        traps[number].routine();
    else {
        printf("called: ");
        print_name(traps[number].name);
        puts("");
        stop("this machine has no routine for the trap at", address);
    }
}
