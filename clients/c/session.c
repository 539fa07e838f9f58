/* Feeds a file to a source buffer segment by segment, and prints behind each segment what is buffered:
 *
 *     session TYPE FILE
 *
 * An initialization segment ends behind its `moov`, a media segment behind its `mdat`; what is no MP4 is one segment.
 * No line of the library is read here: which step comes next is asked for, and what is buffered is looked at. */
#include <inttypes.h>
#include <stdbool.h>
#include <stdio.h>
#include <stdlib.h>
#include <string.h>

#include "mseplay.h"
#include "read.h"

const char program_name[] = "session";

static const char *const refusals[] = {
    "", "InvalidStateError", "NotSupportedError", "QuotaExceededError", "TypeError", "NotFoundError", "NoSuchBuffer",
    "NoSuchBytes",
};

/* A buffer as it was looked at, and the room for its tracks and ranges. */
struct view {
    struct mseplay_buffer_look found;
    struct mseplay_track_look *tracks;
    struct mseplay_range *ranges;
    size_t track_room, range_room;
};

static void check(int status, const char *what)
{
    if (status == MSEPLAY_NO_MEMORY)
        stop("no memory", "", status);
    if (status != MSEPLAY_DONE)
        stop(what, "", status);
}

/* Does a step, and gives the number of its refusal. What it prints is not asked for. */
static uint8_t step(struct mseplay_session **session, const char *line)
{
    uint8_t no_room[1], refused;
    size_t written;
    check(mseplay_step(session, (const uint8_t *)line, strlen(line), no_room, 0, &written, &refused), "no step");
    return refused;
}

/* Does what is left to do, one step after the other. */
static void drain(struct mseplay_session **session)
{
    uint32_t buffer;
    char line[20];
    for (;;) {
        switch (mseplay_next(session, &buffer)) {
        case MSEPLAY_NEXT_FIRE:
            step(session, "fire");
            break;
        case MSEPLAY_NEXT_WORK:
            snprintf(line, sizeof line, "work %" PRIu32, buffer);
            step(session, line);
            break;
        case MSEPLAY_NEXT_ELEMENT:
            step(session, "element");
            break;
        default:
            return;
        }
    }
}

static uint64_t number(const uint8_t *bytes, size_t length)
{
    uint64_t found = 0;
    for (size_t i = 0; i < length; i++)
        found = found << 8 | bytes[i];
    return found;
}

/* Where the segment that begins at a place ends. */
static size_t segment_end(struct mseplay_byte_slice file, size_t at)
{
    while (file.length - at >= 8) {
        const uint8_t *box = file.data + at;
        size_t left = file.length - at;
        bool is_long = number(box, 4) == 1 && left >= 16;
        uint64_t size = is_long ? number(box + 8, 8) : number(box, 4);
        if (size < (is_long ? 16 : 8) || size > left)
            break;
        at += size;
        if (memcmp(box + 4, "moov", 4) == 0 || memcmp(box + 4, "mdat", 4) == 0)
            return at;
    }
    return file.length;
}

/* How many ranges there are of the buffer and of those tracks that had room. */
static size_t range_count(const struct view *view)
{
    size_t count = view->found.ranges;
    for (size_t i = 0; i < view->found.tracks && i < view->track_room; i++)
        count += view->tracks[i].ranges;
    return count;
}

/* Looks at buffer 0, again with more room where there was not enough. */
static void look(struct mseplay_session **session, struct view *view)
{
    for (;;) {
        check(mseplay_look_at(session, 0, &view->found, view->tracks, view->track_room, view->ranges, view->range_room),
              "no buffer");
        size_t ranges = range_count(view);
        if (view->found.tracks <= view->track_room && ranges <= view->range_room)
            return;
        view->track_room = view->found.tracks;
        view->tracks = room_for(view->tracks, view->track_room * sizeof *view->tracks);
        view->range_room = ranges;
        view->ranges = room_for(view->ranges, view->range_room * sizeof *view->ranges);
    }
}

static void print_ticks(struct mseplay_ticks ticks)
{
    __extension__ typedef __int128 wide;
    wide whole = ticks.high * ((wide)1 << 64) + ticks.low;
    wide left = whole < 0 ? -whole : whole;
    char digits[40];
    size_t at = sizeof digits - 1;
    digits[at] = '\0';
    do
        digits[--at] = (char)('0' + left % 10);
    while ((left /= 10) != 0);
    printf("%s%s", whole < 0 ? "-" : "", digits + at);
}

static void print_ranges(const struct mseplay_range *ranges, size_t count)
{
    if (count == 0)
        printf(" none");
    for (size_t i = 0; i < count; i++) {
        printf(" [");
        print_ticks(ranges[i].start);
        printf(",");
        print_ticks(ranges[i].end);
        printf(")");
    }
    printf("\n");
}

static void print_view(const struct view *view)
{
    const struct mseplay_range *ranges = view->ranges;
    printf("buffered");
    print_ranges(ranges, view->found.ranges);
    ranges += view->found.ranges;
    for (size_t i = 0; i < view->found.tracks; i++) {
        const struct mseplay_track_look *track = &view->tracks[i];
        printf("track %" PRIu32 " %s %.4s frames %" PRIu64 " ranges", track->id, track->kind == 0 ? "video" : "audio",
               (const char *)track->codec, track->frames);
        print_ranges(ranges, track->ranges);
        ranges += track->ranges;
    }
}

/* Prints the fault of the file, and gives its number; 0 where there is none. */
static int print_fault(struct mseplay_session **session)
{
    struct mseplay_look found;
    struct mseplay_range no_room[1];
    check(mseplay_look(session, &found, no_room, 0), "");
    if (found.fault.number != 0)
        printf("fault %d at %" PRIu64 "\n", found.fault.number, found.fault.offset);
    return found.fault.number;
}

/* Appends a segment, the blob of a number, and prints what is buffered behind it. False where the call is refused. */
static bool append(struct mseplay_session **session, const uint8_t *bytes, size_t length, size_t blob,
                   struct view *view)
{
    char line[40];
    check(mseplay_give(session, bytes, length), "");
    snprintf(line, sizeof line, "append 0 %zu", blob);
    uint8_t refused = step(session, line);
    drain(session);
    check(mseplay_forget(session, blob + 1), "");
    printf("segment %zu bytes %zu%s%s\n", blob, length, refused != 0 ? " refused " : "", refusals[refused]);
    look(session, view);
    print_view(view);
    return refused == 0;
}

int main(int count, char **words)
{
    if (count != 3)
        stop("usage: session TYPE FILE", "", 1);
    struct mseplay_byte_slice file = contents(words[2]);
    struct mseplay_session *session = NULL;
    check(mseplay_open((uint64_t)1 << 27, 0, &session), "");
    char *add = room_for(NULL, strlen(words[1]) + 5);
    sprintf(add, "add %s", words[1]);
    step(&session, "attach");
    uint8_t refused = step(&session, add);
    if (refused != 0)
        stop("the type is refused: ", refusals[refused], 2);
    struct view view = {.tracks = room_for(NULL, 0), .ranges = room_for(NULL, 0)};
    bool is_taken = true;
    for (size_t at = 0, end, blob = 0; at < file.length && is_taken; at = end, blob++) {
        end = segment_end(file, at);
        is_taken = append(&session, file.data + at, end - at, blob, &view);
    }
    int fault = print_fault(&session);
    mseplay_close(&session);
    free(view.tracks);
    free(view.ranges);
    free(add);
    free_contents(file);
    return fault != 0 ? 9 : is_taken ? 0 : 2;
}
