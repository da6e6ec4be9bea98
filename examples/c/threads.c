/*
 * Uses a context in each of four threads at once: threads NAME=FILE .. prepares the first fragment there again and again, and
 * lists its container. Each thread has to be told what the main thread was told alone.
 */
#include "files.h"
#include "told.h"

#include <pthread.h>

enum { THREADS = 4, ROUNDS = 20, LINES = 1 << 18 };

/* What a thread is told, and the lines of its listing. */
struct work {
    struct told told;
    uint8_t lines[LINES];
    size_t written;
    bool is_done;
};

static struct work alone, works[THREADS];

/* Prepares, reads and closes in a context of its own, and lists. */
static bool work_once(struct work *work)
{
    struct pef_context context = {0};
    struct pef_names names = PEF_NO_NAMES;
    struct pef_bytes name = PEF_NO_BYTES;
    uint32_t connection = 0;
    bool is_done = open_all(&context, 0x10000000) == PEF_OK && prepare_first(&context, &connection, &names) == PEF_OK
                   && tell_connection(&work->told, &context, connection) && pef_close(&context, connection) == PEF_OK
                   && pef_close(&context, connection) == PEF_BAD_CONNECTION && pef_name(PEF_BAD_CONNECTION, &name) == PEF_OK;
    pef_free(&context);
    struct pef_bytes container = fragments[0].container;
    return is_done && pef_list(container.at, container.length, work->lines, LINES, &work->written) == PEF_OK;
}

static bool is_as_alone(const struct work *work)
{
    return is_same(&work->told, &alone.told) && work->written == alone.written && memcmp(work->lines, alone.lines, work->written) == 0;
}

static void *run(void *argument)
{
    struct work *work = argument;
    work->is_done = true;
    for (size_t round = 0; round < ROUNDS; round++)
        work->is_done = work_once(work) && is_as_alone(work) && work->is_done;
    return NULL;
}

int main(int count, char **words)
{
    pthread_t threads[THREADS];
    size_t started = 0, failures = 0;
    if (!read_fragments(count - 1, words + 1) || !work_once(&alone))
        return 2;
    while (started < THREADS && pthread_create(&threads[started], NULL, run, &works[started]) == 0)
        started++;
    for (size_t i = 0; i < started; i++)
        failures += pthread_join(threads[i], NULL) != 0 || !works[i].is_done;
    printf("%zu threads, %zu failures\n", started, failures);
    return started == THREADS && failures == 0 ? 0 : 1;
}
