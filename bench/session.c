/* What bench/session.py measures. FILE is an initialization segment of FRONT bytes and a media segment of three frames.
 *
 *     session play N FILE FRONT       a script of N appends, each with `drain` and `buffered 0`, in one call
 *     session steps N FILE FRONT      the steps of this script, one call each
 *     session appends N FILE FRONT    N times give, append, drain and forget
 *     session memory N FILE FRONT     the same under a quota, each segment behind the last, while the element plays
 *     session looks N FILE FRONT      the ranges of a buffer, looked at N times
 *     session asks N FILE FRONT       and asked for by `buffered 0`
 *
 * Prints the processor seconds of all but the preparation, how many bytes the library printed, and the memory in the
 * end: of the process, and what of it was handed out. */
#include <inttypes.h>
#include <malloc.h>
#include <stdio.h>
#include <stdlib.h>
#include <string.h>
#include <time.h>
#include <unistd.h>

#include "mseplay.h"
#include "read.h"

enum { ROOM = 1 << 16 };

#define MEDIA_TICKS UINT64_C(14112000000)

const char program_name[] = "session";

struct run {
    struct mseplay_session *session;
    struct mseplay_byte_slice file;
    size_t front, printed;
    uint8_t room[ROOM];
};

static double now(void)
{
    struct timespec time;
    clock_gettime(CLOCK_PROCESS_CPUTIME_ID, &time);
    return (double)time.tv_sec + (double)time.tv_nsec / 1e9;
}

static void step(struct run *run, const char *line)
{
    size_t written;
    uint8_t refused;
    int status = mseplay_step(&run->session, (const uint8_t *)line, strlen(line), run->room, ROOM, &written, &refused);
    if (status != MSEPLAY_DONE || refused != MSEPLAY_NOT_REFUSED)
        stop("not done: ", line, 1);
    run->printed += written;
}

static void give(struct run *run, const uint8_t *bytes, size_t length)
{
    if (mseplay_give(&run->session, bytes, length) != MSEPLAY_DONE)
        stop("no memory", "", 5);
}

/* Opens a session whose buffer has the initialization segment, blob 0. */
static void begin(struct run *run, uint64_t quota)
{
    if (mseplay_open(quota, 0, &run->session) != MSEPLAY_DONE)
        stop("no memory", "", 5);
    give(run, run->file.data, run->file.length);
    step(run, "attach");
    step(run, "add video/mp4");
    char line[60];
    snprintf(line, sizeof line, "append 0 0 0 %zu", run->front);
    step(run, line);
    step(run, "drain");
}

static void end(struct run *run)
{
    mseplay_close(&run->session);
}

static double time_of_play(struct run *run, size_t count)
{
    static const char start[] = "blobs = ['file f']\nsteps = ['attach', 'add video/mp4', ";
    char *script = room_for(NULL, count * 80 + 200);
    size_t length = (size_t)sprintf(script, "%s'append 0 0 0 %zu', 'drain', ", start, run->front);
    for (size_t i = 0; i < count; i++)
        length += (size_t)sprintf(script + length, "'append 0 0 %zu %zu', 'drain', 'buffered 0', ", run->front,
                                  run->file.length - run->front);
    length += (size_t)sprintf(script + length, "]\n");
    struct mseplay_byte_slice words[] = {{(const uint8_t *)"play", 4}, {(const uint8_t *)"s", 1}};
    struct mseplay_file files[] = {
        {words[1], {(const uint8_t *)script, length}},
        {{(const uint8_t *)"f", 1}, run->file},
    };
    double from = now();
    int status = mseplay_run(words, 2, files, 2, run->room, ROOM, &run->printed);
    double seconds = now() - from;
    if (status != 0)
        stop("not played", "", status);
    free(script);
    return seconds;
}

static double time_of_steps(struct run *run, size_t count)
{
    double from = now();
    begin(run, (uint64_t)1 << 27);
    char line[60];
    for (size_t i = 0; i < count; i++) {
        snprintf(line, sizeof line, "append 0 0 %zu %zu", run->front, run->file.length - run->front);
        step(run, line);
        step(run, "drain");
        step(run, "buffered 0");
    }
    size_t written;
    mseplay_block(&run->session, run->room, ROOM, &written);
    run->printed += written;
    end(run);
    return now() - from;
}

/* Gives the media segment as blob `number`, appends it, and forgets it. */
static void append(struct run *run, size_t number)
{
    char line[60];
    give(run, run->file.data + run->front, run->file.length - run->front);
    snprintf(line, sizeof line, "append 0 %zu", number);
    step(run, line);
    step(run, "drain");
    if (mseplay_forget(&run->session, number + 1) != MSEPLAY_DONE)
        stop("no memory", "", 5);
}

static double time_of_appends(struct run *run, size_t count)
{
    double from = now();
    begin(run, (uint64_t)1 << 27);
    for (size_t i = 1; i <= count; i++)
        append(run, i);
    return now() - from;
}

static double time_under_quota(struct run *run, size_t count)
{
    double from = now();
    begin(run, 1000);
    step(run, "play");
    char line[60];
    for (size_t i = 1; i <= count; i++) {
        snprintf(line, sizeof line, "offset 0 %" PRIu64, i * MEDIA_TICKS);
        step(run, line);
        append(run, i);
        step(run, "advance 1/10");
        step(run, "drain");
    }
    return now() - from;
}

static double time_of_looks(struct run *run, size_t count)
{
    begin(run, (uint64_t)1 << 27);
    append(run, 1);
    struct mseplay_buffer_look found;
    struct mseplay_track_look tracks[4];
    struct mseplay_range ranges[16];
    double from = now();
    for (size_t i = 0; i < count; i++)
        if (mseplay_look_at(&run->session, 0, &found, tracks, 4, ranges, 16) != MSEPLAY_DONE || found.ranges != 1)
            stop("no look", "", 1);
    return now() - from;
}

static double time_of_asks(struct run *run, size_t count)
{
    begin(run, (uint64_t)1 << 27);
    append(run, 1);
    double from = now();
    for (size_t i = 0; i < count; i++)
        step(run, "buffered 0");
    return now() - from;
}

static size_t resident_bytes(void)
{
    FILE *file = fopen("/proc/self/statm", "r");
    size_t pages = 0;
    if (file == NULL || fscanf(file, "%*u %zu", &pages) != 1)
        stop("no /proc/self/statm", "", 3);
    fclose(file);
    return pages * (size_t)sysconf(_SC_PAGESIZE);
}

static const struct {
    const char *name;
    double (*time)(struct run *run, size_t count);
} modes[] = {
    {"play", time_of_play}, {"steps", time_of_steps}, {"appends", time_of_appends}, {"memory", time_under_quota},
    {"looks", time_of_looks}, {"asks", time_of_asks},
};

int main(int count, char **words)
{
    static struct run run;
    for (size_t i = 0; count == 5 && i < sizeof modes / sizeof *modes; i++)
        if (strcmp(words[1], modes[i].name) == 0) {
            run.file = contents(words[3]);
            run.front = strtoull(words[4], NULL, 10);
            double seconds = modes[i].time(&run, strtoull(words[2], NULL, 10));
            printf("%.6f %zu %zu %zu\n", seconds, run.printed, resident_bytes(), (size_t)mallinfo2().uordblks);
            return 0;
        }
    stop("usage: session MODE N FILE FRONT", "", 1);
}
