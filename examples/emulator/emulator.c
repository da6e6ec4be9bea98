/*
 * Runs fragments: emulator [OPTION ..] NAME=FILE .. prepares the first with the others as its libraries, and runs it: the
 * initialization routines in their order, main, and the termination routines in the reverse order. While main runs, it may open
 * other fragments by their names, call them, and close them.
 *
 *     --memory           runs nothing: the machine's memory is printed as by `pef load`
 *     --map              prints each section that comes into memory or goes
 *     --base ADDRESS     places no section below it
 *     --stack ADDRESS    has the stack there
 *     --folder FOLDER    looks for a fragment that isn't named here as FOLDER/NAME.pef, when it is wanted
 *
 * The machine is Unicorn's PowerPC (machine.c). libpef prepares the fragments (fragments.c), and their sections are copied to
 * their addresses in the machine. A fragment whose exports are numbers is a stub of a system library: at each number the machine
 * has a transition vector that leads into a routine of this program (system.c).
 */
#include "emulator.h"

#include <stdio.h>
#include <stdlib.h>
#include <string.h>

static int usage(void)
{
    fputs("usage: emulator [--memory] [--map] [--base ADDRESS] [--stack ADDRESS] [--folder FOLDER] NAME=FILE ..\n", stderr);
    return 2;
}

/* Reads an address in hexadecimal, from `low` to `high` and a multiple of 16. */
static bool read_address(const char *word, uint32_t low, uint32_t high, uint32_t *address)
{
    char *end;
    unsigned long it = word == NULL ? 0 : strtoul(word, &end, 16);
    if (it < low || it > high || it % 16 != 0 || *end != '\0')
        return false;
    *address = (uint32_t)it;
    return true;
}

/* Reads the options, and returns the first word after them, or NULL if they are wrong. The words end with NULL. */
static char **read_options(char **words, struct options *options, bool *memory_only)
{
    for (; *words != NULL && strncmp(*words, "--", 2) == 0; words++) {
        bool is_read = true;
        if (strcmp(*words, "--memory") == 0)
            *memory_only = true;
        else if (strcmp(*words, "--map") == 0)
            options->shows_map = true;
        else if (strcmp(*words, "--base") == 0)
            is_read = read_address(*++words, RAM, RAM_END, &options->base);
        else if (strcmp(*words, "--stack") == 0)
            is_read = read_address(*++words, RAM, RAM_END - STACK_SIZE, &options->stack);
        else if (strcmp(*words, "--folder") == 0)
            is_read = (options->folder = *++words) != NULL;
        else
            return NULL;
        if (!is_read)
            return NULL;
    }
    return *words == NULL ? NULL : words;
}

static void add_files(char **words)
{
    for (; *words != NULL; words++) {
        size_t length = strcspn(*words, "=");
        if ((*words)[length] == '\0') {
            fprintf(stderr, "%s: not NAME=FILE\n", *words);
            exit(2);
        }
        add_file(*words, length, *words + length + 1);
    }
}

int main(int count, char **words)
{
    struct options options = {.base = RAM, .stack = RAM_END - STACK_SIZE};
    bool memory_only = false;
    char **files = count == 0 ? NULL : read_options(words + 1, &options, &memory_only);
    uint32_t connection;
    if (files == NULL)
        return usage();
    open_store(&options);
    add_files(files);
    make_machine(options.stack);
    struct pef_bytes name = {(const uint8_t *)files[0], strcspn(files[0], "=")};
    bool is_prepared = prepare_fragment(name, &connection) == PEF_OK;
    if (is_prepared && memory_only)
        print_memory(connection);
    else if (is_prepared) {
        initialize(connection);
        run_main(connection);
        if (!is_stopped())
            close_all();
    }
    free_store();
    end_machine();
    return is_prepared && !is_stopped() ? 0 : 1;
}
