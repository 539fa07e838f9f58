/* What is looked at, in the words of docs/SCRIPTS.md. */
#include <stdlib.h>
#include <string.h>

#include "hostile.h"

static const char *const sources[] = {"closed", "open", "ended"};
static const char *const phases[] = {"waiting", "init", "media"};
static const char *const modes[] = {"segments", "sequence"};

/* Rooms that grow. */
static struct mseplay_range *ranges;
static struct mseplay_track_look *tracks;
static size_t range_room, track_room;

static ticks ticks_of(struct mseplay_ticks value)
{
    return (ticks)(((unsigned __int128)(uint64_t)value.high << 64) | value.low);
}

static void time_text(struct text *text, struct mseplay_time time)
{
    CHECK(time.kind <= MSEPLAY_INFINITE);
    if (time.kind == MSEPLAY_TICKS) {
        text_ticks(text, ticks_of(time.ticks));
        return;
    }
    CHECK(ticks_of(time.ticks) == 0);
    text_word(text, time.kind == MSEPLAY_NAN ? "nan" : "inf");
}

static void range_text(struct text *text, struct mseplay_range range, const char *end)
{
    text_word(text, "[");
    text_ticks(text, ticks_of(range.start));
    text_word(text, ",");
    text_ticks(text, ticks_of(range.end));
    text_word(text, end);
}

static void ranges_text(struct text *text, const struct mseplay_range *from, size_t count)
{
    if (count == 0)
        text_word(text, "none");
    for (size_t i = 0; i < count; i++) {
        text_word(text, i > 0 ? " " : "");
        range_text(text, from[i], ")");
    }
}

static void grow(void **room, size_t *size, size_t needed, size_t each)
{
    if (needed <= *size && *room != NULL)
        return;
    *size = needed + 4;
    *room = realloc(*room, *size * each);
    CHECK(*room != NULL);
}

static uint8_t look(struct mseplay_session **session, struct mseplay_look *found)
{
    grow((void **)&ranges, &range_room, 0, sizeof *ranges);
    memset(found, 0x55, sizeof *found);
    uint8_t status = mseplay_look(session, found, ranges, range_room);
    if (status == MSEPLAY_DONE && found->ranges > range_room) {
        grow((void **)&ranges, &range_room, found->ranges, sizeof *ranges);
        status = mseplay_look(session, found, ranges, range_room);
    }
    return status;
}

static void source_text(struct text *text, const struct mseplay_look *found)
{
    CHECK(found->source <= 2 && found->level <= 4 && found->paused <= 1 && found->seeking <= 1 && found->ended <= 1 &&
          found->is_seekable <= 1);
    text_format(text, "source %s duration ", sources[found->source]);
    time_text(text, found->duration);
    text_format(text, " level %d position ", found->level);
    text_ticks(text, ticks_of(found->position));
    text_format(text, " paused %s seeking %s error %d", found->paused ? "true" : "false",
                found->seeking ? "true" : "false", found->error);
}

static void fault_text(struct text *text, const struct mseplay_fault *fault)
{
    if (fault->number == 0)
        return;
    CHECK(fault->number <= 18);
    const char *inner = inner_name(fault->number, fault->inner);
    CHECK((inner != NULL) == (fault->number == 9 || fault->number == 10) && (inner != NULL || fault->inner == 0));
    text_format(text, "fault %d %s", fault->number, fault_names[fault->number]);
    if (inner != NULL)
        text_format(text, " %s", inner);
    if (fault->missing[0] != 0) {
        CHECK(fault->number == 9 && fault->inner == 2);
        text_word(text, " ");
        text_bytes(text, fault->missing, 4);
    }
    text_format(text, " buffer %u at %llu\n", fault->buffer, (unsigned long long)fault->offset);
}

uint8_t look_text(struct mseplay_session **session, struct text *text)
{
    struct mseplay_look found;
    uint8_t status = look(session, &found);
    if (status != MSEPLAY_DONE)
        return status;
    source_text(text, &found);
    text_format(text, "\nstart %llu ended %d made %u\nseekable ", (unsigned long long)found.start_position.low, found.ended,
                found.made);
    if (found.is_seekable)
        range_text(text, found.seekable, "]");
    text_word(text, "\nbuffered ");
    ranges_text(text, ranges, found.ranges);
    text_word(text, "\n");
    fault_text(text, &found.fault);
    return status;
}

static size_t all_ranges(const struct mseplay_buffer_look *found)
{
    size_t all = found->ranges;
    for (size_t i = 0; i < found->tracks; i++)
        all += tracks[i].ranges;
    return all;
}

static uint8_t look_at(struct mseplay_session **session, uint32_t number, struct mseplay_buffer_look *found)
{
    grow((void **)&ranges, &range_room, 0, sizeof *ranges);
    grow((void **)&tracks, &track_room, 0, sizeof *tracks);
    uint8_t status = mseplay_look_at(session, number, found, tracks, track_room, ranges, range_room);
    while (status == MSEPLAY_DONE && (found->tracks > track_room || all_ranges(found) > range_room)) {
        if (found->tracks > track_room)
            grow((void **)&tracks, &track_room, found->tracks, sizeof *tracks);
        else
            grow((void **)&ranges, &range_room, all_ranges(found), sizeof *ranges);
        status = mseplay_look_at(session, number, found, tracks, track_room, ranges, range_room);
    }
    return status;
}

static void held_text(struct text *text, uint32_t number, const struct mseplay_buffer_look *found)
{
    const struct mseplay_range *from = ranges + found->ranges;
    text_format(text, "buffer %u phase %s held %llu used %llu buffered ", number, phases[found->phase],
                (unsigned long long)found->held, (unsigned long long)found->used);
    ranges_text(text, ranges, found->ranges);
    text_word(text, "\n");
    for (size_t i = 0; i < found->tracks; i++) {
        CHECK(tracks[i].kind <= 1);
        text_format(text, "track %u %u %s ", number, tracks[i].id, tracks[i].kind == 0 ? "video" : "audio");
        text_bytes(text, tracks[i].codec, 4);
        text_format(text, " frames %llu ranges ", (unsigned long long)tracks[i].frames);
        ranges_text(text, from, tracks[i].ranges);
        from += tracks[i].ranges;
        text_word(text, "\n");
    }
}

uint8_t look_at_text(struct mseplay_session **session, uint32_t number, struct text *text)
{
    struct mseplay_buffer_look found;
    uint8_t status = look_at(session, number, &found);
    if (status != MSEPLAY_DONE)
        return status;
    CHECK(found.updating <= 1 && found.active <= 1 && found.mode <= 1 && found.phase <= 2);
    text_format(text, "updating %d active %d mode %s offset ", found.updating, found.active, modes[found.mode]);
    text_ticks(text, ticks_of(found.timestamp_offset));
    text_word(text, " window ");
    text_ticks(text, ticks_of(found.append_window_start));
    text_word(text, " ");
    time_text(text, found.append_window_end);
    text_word(text, "\n");
    held_text(text, number, &found);
    return status;
}

uint8_t block_of_looks(struct mseplay_session **session, struct text *text)
{
    struct mseplay_look found;
    struct mseplay_buffer_look buffer;
    uint8_t status = look(session, &found);
    if (status != MSEPLAY_DONE)
        return status;
    text_word(text, "state ");
    source_text(text, &found);
    text_word(text, "\nduration ");
    time_text(text, found.duration);
    text_word(text, "\n");
    for (uint32_t number = 0; number < found.made; number++) {
        status = look_at(session, number, &buffer);
        if (status == MSEPLAY_DONE)
            held_text(text, number, &buffer);
        else if (status != MSEPLAY_NOT_THERE)
            return status;
    }
    fault_text(text, &found.fault);
    return MSEPLAY_DONE;
}
