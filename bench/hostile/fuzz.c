/* The target of libFuzzer: the parsers of the static library, one by the first byte of the input. bench/hostile/guided.py
 * builds it. */
#include <stdio.h>
#include <stdlib.h>
#include <string.h>

#include "hostile.h"

/* Samples take time and memory, and teach nothing more. */
enum { MOST_SAMPLES = 4000, LINES = 100 };

static struct text first, second;

_Noreturn void not_so(const char *file, int line, const char *fact)
{
    fprintf(stderr, "%s:%d: not so: %s\n", file, line, fact);
    abort();
}

/* The status of a run with the input as file, whose text it puts into a text. */
static int run(struct text *printed, const uint8_t *data, size_t size, const char *const *words, size_t count)
{
    struct mseplay_byte_slice list[3];
    struct mseplay_file file = {{(const uint8_t *)"f", 1}, {data, size}};
    size_t written;
    for (size_t i = 0; i < count; i++)
        list[i] = (struct mseplay_byte_slice){(const uint8_t *)words[i], strlen(words[i])};
    printed->length = 0;
    text_room(printed, 1 << 20);
    int status = mseplay_run(list, count, &file, 1, printed->at, printed->size, &written);
    CHECK(heap.blocks == 0);
    if (written > printed->size) {
        text_room(printed, written);
        CHECK(mseplay_run(list, count, &file, 1, printed->at, printed->size, &written) == status);
    }
    printed->length = written;
    return status;
}

static void try_movie(const uint8_t *data, size_t size)
{
    int status = run(&first, data, size, (const char *[]){"ranges", "f"}, 2);
    CHECK((status == 0 || status == 9) && read_command(first.at, first.length, status, false));
    CHECK(run(&second, data, size, (const char *[]){"pieces", "5", "f"}, 3) == status);
    CHECK(first.length == second.length && memcmp(first.at, second.at, first.length) == 0);
}

static void try_frames(const uint8_t *data, size_t size)
{
    int status = run(&first, data, size, (const char *[]){"feed", "0", "f"}, 3);
    CHECK((status == 0 || status == 9) && read_command(first.at, first.length, status, true));
}

static void try_classic(const uint8_t *data, size_t size)
{
    int status = run(&first, data, size, (const char *[]){"remux", "f"}, 2);
    CHECK(status == 0 || status == 9);
    if (status == 0 && samples_of(first.at, first.length) <= MOST_SAMPLES)
        CHECK(run(&second, first.at, first.length, (const char *[]){"ranges", "f"}, 2) % 9 == 0);
}

static void try_script(const uint8_t *data, size_t size)
{
    int status = run(&first, data, size, (const char *[]){"play", "f"}, 2);
    CHECK(read_played(first.at, first.length, status));
}

static uint8_t step(struct mseplay_session **session, const uint8_t *line, size_t length)
{
    size_t written;
    uint8_t refused;
    text_room(&first, 1 << 16);
    return mseplay_step(session, line, length, first.at, first.size, &written, &refused);
}

static void try_lines(const uint8_t *data, size_t size)
{
    struct mseplay_session *session = NULL;
    const uint8_t *end = data + size;
    CHECK(mseplay_open(1000, 0, &session) == MSEPLAY_DONE);
    for (int i = 0; i < LINES && data < end; i++) {
        const uint8_t *feed = memchr(data, '\n', (size_t)(end - data));
        size_t length = (size_t)((feed != NULL ? feed : end) - data);
        struct step read;
        second.length = 0;
        bool is_step = read_step(data, length, &read, &second);
        CHECK(step(&session, data, length) == (!is_step ? MSEPLAY_NOT_THERE : read.names_blob ? MSEPLAY_NO_BYTES : MSEPLAY_DONE));
        data += length + 1;
    }
    mseplay_close(&session);
    CHECK(heap.blocks == 0);
}

static void try_adts(const uint8_t *data, size_t size)
{
    static const char *const lines[] = {"attach", "add audio/aac", "append 0 0", "drain"};
    struct mseplay_session *session = NULL;
    CHECK(mseplay_open(1 << 20, 0, &session) == MSEPLAY_DONE && mseplay_give(&session, data, size) == MSEPLAY_DONE);
    for (size_t i = 0; i < COUNT_OF(lines); i++)
        CHECK(step(&session, (const uint8_t *)lines[i], strlen(lines[i])) == MSEPLAY_DONE);
    mseplay_close(&session);
    CHECK(heap.blocks == 0);
}

int LLVMFuzzerTestOneInput(const uint8_t *data, size_t size)
{
    static void (*const parsers[])(const uint8_t *data, size_t size) = {try_movie,  try_frames, try_classic,
                                                                        try_script, try_lines,  try_adts};
    heap_anew();
    if (size > 0 && samples_of(data, size) <= MOST_SAMPLES)
        parsers[data[0] % COUNT_OF(parsers)](data + 1, size - 1);
    return 0;
}
