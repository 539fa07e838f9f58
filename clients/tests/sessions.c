/* Tries the calls of mseplay.h on sessions: one session, two that take turns, one in each of two threads, too little
 * room, numbers out of range, and want of memory at each allocation.
 *
 *     sessions FILE
 *
 * prints what the steps below print of the file. It is linked with heap_counted.c. */
#include <pthread.h>
#include <stdbool.h>
#include <stdio.h>
#include <stdlib.h>
#include <string.h>

#include "mseplay.h"
#include "read.h"

const char program_name[] = "sessions";

size_t heap_blocks(void);
void heap_refuse_from(size_t count);
bool heap_has_refused(void);

#define CHECK(fact) \
    do { \
        if (!(fact)) { \
            fprintf(stderr, "sessions.c:%d: not so: %s\n", __LINE__, #fact); \
            abort(); \
        } \
    } while (0)

enum { QUOTA = 1 << 27, TEXT = 4000, STEPS = 10, FILL = 0x55 };

static const struct {
    const char *line;
    uint8_t refused;
} steps[STEPS] = {
    {"attach", MSEPLAY_NOT_REFUSED},
    {"add video/mp4", MSEPLAY_NOT_REFUSED},
    {"add video/nothing", MSEPLAY_NOT_SUPPORTED_ERROR},
    {"append 0 0", MSEPLAY_NOT_REFUSED},
    {"append 0 0", MSEPLAY_INVALID_STATE_ERROR},
    {"drain", MSEPLAY_NOT_REFUSED},
    {"buffered 0", MSEPLAY_NOT_REFUSED},
    {"remove 0 inf 0", MSEPLAY_TYPE_ERROR},
    {"removebuffer 1", MSEPLAY_NO_SUCH_BUFFER},
    {"append 0 0 1000000 1", MSEPLAY_NO_SUCH_BYTES},
};

/* A session, what it printed so far, and how its last call ended. */
struct player {
    struct mseplay_session *session;
    struct mseplay_byte_slice file;
    char text[TEXT];
    size_t length;
    int status;
};

static int step(struct mseplay_session **session, const char *line, char *room, size_t size, size_t *written,
                uint8_t *refused)
{
    return mseplay_step(session, (const uint8_t *)line, strlen(line), (uint8_t *)room, size, written, refused);
}

static void begin(struct player *player, struct mseplay_byte_slice file)
{
    memset(player, 0, sizeof *player);
    player->file = file;
    player->status = mseplay_open(QUOTA, 0, &player->session);
    if (player->status == MSEPLAY_DONE)
        player->status = mseplay_give(&player->session, file.data, file.length);
    else
        CHECK(player->session == NULL);
}

static void take_step(struct player *player, size_t number)
{
    size_t written;
    uint8_t refused;
    player->status = step(&player->session, steps[number].line, player->text + player->length, TEXT - player->length,
                          &written, &refused);
    player->length += written;
    if (player->status == MSEPLAY_DONE)
        CHECK(refused == steps[number].refused);
    else
        CHECK(player->status == MSEPLAY_NO_MEMORY);
}

static void *play(void *given)
{
    struct player *player = given;
    for (size_t i = 0; i < STEPS && player->status == MSEPLAY_DONE; i++)
        take_step(player, i);
    return NULL;
}

static bool is_same(const struct player *a, const struct player *b)
{
    return a->length == b->length && memcmp(a->text, b->text, a->length) == 0;
}

static void try_turns(struct mseplay_byte_slice file, const struct player *expected)
{
    struct player players[2];
    for (size_t k = 0; k < 2; k++)
        begin(&players[k], file);
    for (size_t i = 0; i < STEPS; i++)
        for (size_t k = 0; k < 2; k++)
            take_step(&players[k], i);
    for (size_t k = 0; k < 2; k++) {
        CHECK(is_same(&players[k], expected));
        mseplay_close(&players[k].session);
    }
}

static void try_threads(struct mseplay_byte_slice file, const struct player *expected)
{
    static struct player players[2];
    pthread_t threads[2];
    for (size_t k = 0; k < 2; k++)
        begin(&players[k], file);
    for (size_t k = 0; k < 2; k++)
        CHECK(pthread_create(&threads[k], NULL, play, &players[k]) == 0);
    for (size_t k = 0; k < 2; k++) {
        CHECK(pthread_join(threads[k], NULL) == 0);
        CHECK(is_same(&players[k], expected));
        mseplay_close(&players[k].session);
    }
}

/* Whether all bytes are as they were before the call. */
static bool is_untouched(const void *room, size_t size)
{
    const uint8_t *bytes = room;
    for (size_t i = 0; i < size; i++)
        if (bytes[i] != FILL)
            return false;
    return true;
}

/* Each size of the room up to what is printed and more. */
static void try_text_rooms(struct player *player)
{
    char whole[TEXT], part[TEXT];
    size_t length, written;
    uint8_t refused;
    CHECK(step(&player->session, "state", whole, TEXT, &length, &refused) == MSEPLAY_DONE && length > 0);
    for (size_t size = 0; size <= length + 2; size++) {
        size_t count = size < length ? size : length;
        memset(part, FILL, TEXT);
        mseplay_printed(&player->session, (uint8_t *)part, size);
        CHECK(memcmp(part, whole, count) == 0 && is_untouched(part + count, TEXT - count));
        memset(part, FILL, TEXT);
        CHECK(step(&player->session, "state", part, size, &written, &refused) == MSEPLAY_DONE && written == length);
        CHECK(memcmp(part, whole, count) == 0 && is_untouched(part + count, TEXT - count));
    }
    CHECK(mseplay_block(&player->session, (uint8_t *)whole, TEXT, &length) == MSEPLAY_DONE && length > 0);
    memset(part, FILL, TEXT);
    CHECK(mseplay_block(&player->session, (uint8_t *)part, 7, &written) == MSEPLAY_DONE && written == length);
    CHECK(memcmp(part, whole, 7) == 0 && is_untouched(part + 7, TEXT - 7));
}

/* Each count of places for tracks and ranges up to what there is and more. */
static void try_look_rooms(struct player *player)
{
    struct mseplay_look look;
    struct mseplay_buffer_look found, again;
    struct mseplay_track_look tracks[8], some_tracks[8];
    struct mseplay_range ranges[20], some[20];
    CHECK(mseplay_look_at(&player->session, 0, &found, tracks, 8, ranges, 20) == MSEPLAY_DONE);
    size_t all = found.ranges;
    for (size_t i = 0; i < found.tracks; i++)
        all += tracks[i].ranges;
    CHECK(found.tracks > 0 && found.ranges > 0 && all < 20);
    for (size_t size = 0; size <= all + 1; size++) {
        size_t count = size < all ? size : all;
        memset(some, FILL, sizeof some);
        CHECK(mseplay_look_at(&player->session, 0, &again, some_tracks, 8, some, size) == MSEPLAY_DONE);
        CHECK(memcmp(some, ranges, count * sizeof *some) == 0);
        CHECK(is_untouched(some + count, (20 - count) * sizeof *some));
        CHECK(again.ranges == found.ranges && again.tracks == found.tracks);
    }
    for (size_t size = 0; size <= found.tracks; size++) {
        memset(some_tracks, FILL, sizeof some_tracks);
        CHECK(mseplay_look_at(&player->session, 0, &again, some_tracks, size, some, 20) == MSEPLAY_DONE);
        CHECK(is_untouched(some_tracks + size, (8 - size) * sizeof *some_tracks));
        CHECK(size == 0 || some_tracks[size - 1].id == tracks[size - 1].id);
    }
    memset(some, FILL, sizeof some);
    CHECK(mseplay_look(&player->session, &look, some, 0) == MSEPLAY_DONE && is_untouched(some, sizeof some));
    CHECK(look.source == 1 && look.made == 1 && look.ranges == found.ranges && look.fault.number == 0);
    CHECK(mseplay_look(&player->session, &look, some, 20) == MSEPLAY_DONE);
    CHECK(memcmp(some, ranges, look.ranges * sizeof *some) == 0);
    CHECK(is_untouched(some + look.ranges, (20 - look.ranges) * sizeof *some));
}

/* What is refused as no step, and changes nothing. */
static void try_not_there(struct player *player)
{
    static const char *const lines[] = {"", "nothing", "attach ", "drain\n", "\xff", "append 0 0 1"};
    char before[TEXT], after[TEXT], room[TEXT];
    size_t length, again, written;
    uint8_t refused;
    uint32_t buffer;
    struct mseplay_buffer_look found;
    struct mseplay_track_look tracks[1];
    struct mseplay_range ranges[1];
    CHECK(mseplay_block(&player->session, (uint8_t *)before, TEXT, &length) == MSEPLAY_DONE);
    for (size_t i = 0; i < sizeof lines / sizeof *lines; i++) {
        memset(room, FILL, TEXT);
        CHECK(step(&player->session, lines[i], room, TEXT, &written, &refused) == MSEPLAY_NOT_THERE);
        CHECK(written == 0 && refused == MSEPLAY_NOT_REFUSED && is_untouched(room, TEXT));
    }
    memset(&found, FILL, sizeof found);
    memset(tracks, FILL, sizeof tracks);
    memset(ranges, FILL, sizeof ranges);
    CHECK(mseplay_look_at(&player->session, 1, &found, tracks, 1, ranges, 1) == MSEPLAY_NOT_THERE);
    CHECK(is_untouched(&found, sizeof found) && is_untouched(tracks, sizeof tracks));
    CHECK(is_untouched(ranges, sizeof ranges));
    CHECK(mseplay_next(&player->session, &buffer) == MSEPLAY_NEXT_NONE && buffer == 0);
    CHECK(mseplay_forget(&player->session, 1) == MSEPLAY_DONE);
    CHECK(step(&player->session, "append 0 0", room, TEXT, &written, &refused) == MSEPLAY_NO_BYTES);
    CHECK(step(&player->session, "append 0 1", room, TEXT, &written, &refused) == MSEPLAY_NO_BYTES);
    CHECK(written == 0 && refused == MSEPLAY_NOT_REFUSED && is_untouched(room, TEXT));
    CHECK(mseplay_block(&player->session, (uint8_t *)after, TEXT, &again) == MSEPLAY_DONE);
    CHECK(again == length && memcmp(before, after, length) == 0);
}

static void try_numbers(void)
{
    static const struct {
        uint64_t quota, gap;
        int status;
    } rows[] = {
        {0, 0, MSEPLAY_NOT_THERE},
        {((uint64_t)1 << 40) + 1, 0, MSEPLAY_NOT_THERE},
        {1, ((uint64_t)1 << 40) + 1, MSEPLAY_NOT_THERE},
        {UINT64_MAX, UINT64_MAX, MSEPLAY_NOT_THERE},
        {1, 0, MSEPLAY_DONE},
        {(uint64_t)1 << 40, (uint64_t)1 << 40, MSEPLAY_DONE},
    };
    for (size_t i = 0; i < sizeof rows / sizeof *rows; i++) {
        struct mseplay_session *session = NULL;
        CHECK(mseplay_open(rows[i].quota, rows[i].gap, &session) == rows[i].status);
        CHECK((session != NULL) == (rows[i].status == MSEPLAY_DONE));
        CHECK(mseplay_open(1, 0, &session) == MSEPLAY_DONE);
        size_t blocks = heap_blocks();
        CHECK(mseplay_open(rows[i].quota, rows[i].gap, &session) == rows[i].status);
        CHECK(session != NULL && heap_blocks() == blocks);
        mseplay_close(&session);
        CHECK(session == NULL && heap_blocks() == 0);
    }
}

/* Each call on no session says so, and writes nothing. */
static void try_no_session(struct mseplay_byte_slice file)
{
    struct mseplay_session *session = NULL;
    char room[TEXT];
    size_t written;
    uint8_t refused;
    uint32_t buffer;
    struct mseplay_look look;
    struct mseplay_buffer_look found;
    struct mseplay_track_look tracks[1];
    struct mseplay_range ranges[1];
    memset(room, FILL, TEXT);
    memset(ranges, FILL, sizeof ranges);
    CHECK(step(&session, "attach", room, TEXT, &written, &refused) == MSEPLAY_NO_SESSION);
    CHECK(written == 0 && refused == MSEPLAY_NOT_REFUSED);
    CHECK(mseplay_give(&session, file.data, file.length) == MSEPLAY_NO_SESSION);
    CHECK(mseplay_forget(&session, 1) == MSEPLAY_NO_SESSION);
    CHECK(mseplay_next(&session, &buffer) == MSEPLAY_NO_SESSION);
    CHECK(mseplay_look(&session, &look, ranges, 1) == MSEPLAY_NO_SESSION);
    CHECK(mseplay_look_at(&session, 0, &found, tracks, 1, ranges, 1) == MSEPLAY_NO_SESSION);
    written = 1;
    CHECK(mseplay_block(&session, (uint8_t *)room, TEXT, &written) == MSEPLAY_NO_SESSION && written == 0);
    mseplay_printed(&session, (uint8_t *)room, TEXT);
    CHECK(is_untouched(room, TEXT) && is_untouched(ranges, sizeof ranges));
    mseplay_close(&session);
    CHECK(session == NULL);
}

/* A session that found no memory in a step answers so to each call. */
static void try_ended(struct player *player)
{
    char room[TEXT];
    size_t written;
    uint8_t refused;
    uint32_t buffer;
    struct mseplay_look look;
    struct mseplay_buffer_look found;
    struct mseplay_track_look tracks[1];
    struct mseplay_range ranges[1];
    CHECK(step(&player->session, "attach", room, TEXT, &written, &refused) == MSEPLAY_NO_MEMORY);
    CHECK(mseplay_give(&player->session, player->file.data, player->file.length) == MSEPLAY_NO_MEMORY);
    CHECK(mseplay_forget(&player->session, 1) == MSEPLAY_NO_MEMORY);
    CHECK(mseplay_next(&player->session, &buffer) == MSEPLAY_NO_MEMORY);
    CHECK(mseplay_look(&player->session, &look, ranges, 1) == MSEPLAY_NO_MEMORY);
    CHECK(mseplay_look_at(&player->session, 0, &found, tracks, 1, ranges, 1) == MSEPLAY_NO_MEMORY);
    CHECK(mseplay_block(&player->session, (uint8_t *)room, TEXT, &written) == MSEPLAY_NO_MEMORY);
}

/* The run with all allocations refused behind the first `count`. False where none was refused. */
static bool try_memory(struct mseplay_byte_slice file, size_t count, const struct player *expected)
{
    struct player player;
    heap_refuse_from(count);
    begin(&player, file);
    bool is_stepped = player.status == MSEPLAY_DONE;
    play(&player);
    bool has_refused = heap_has_refused();
    heap_refuse_from(SIZE_MAX);
    CHECK((player.status == MSEPLAY_NO_MEMORY) == has_refused);
    CHECK(player.length <= expected->length && memcmp(player.text, expected->text, player.length) == 0);
    CHECK(has_refused || is_same(&player, expected));
    if (is_stepped && has_refused)
        try_ended(&player);
    if (player.session != NULL)
        mseplay_close(&player.session);
    CHECK(heap_blocks() == 0);
    return has_refused;
}

int main(int count, char **words)
{
    if (count != 2)
        stop("usage: sessions FILE", "", 1);
    struct mseplay_byte_slice file = contents(words[1]);
    static struct player player, expected;
    begin(&player, file);
    play(&player);
    CHECK(player.status == MSEPLAY_DONE);
    expected = player;
    try_text_rooms(&player);
    try_look_rooms(&player);
    try_not_there(&player);
    CHECK(heap_blocks() > 0);
    mseplay_close(&player.session);
    CHECK(heap_blocks() == 0);
    try_no_session(file);
    try_numbers();
    try_turns(file, &expected);
    try_threads(file, &expected);
    CHECK(heap_blocks() == 0);
    size_t refusals = 0;
    while (try_memory(file, refusals, &expected))
        refusals++;
    CHECK(refusals > 10);
    fwrite(expected.text, 1, expected.length, stdout);
    free_contents(file);
    return 0;
}
