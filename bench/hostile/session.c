/* Does the actions of a plan, and checks what they bring. */
#include <stdlib.h>
#include <string.h>
#include <time.h>

#include "hostile.h"

enum { ROOM = 600, FILL = 0x55 };

clockid_t session_clock = CLOCK_MONOTONIC;

static uint64_t now(void)
{
    struct timespec time;
    clock_gettime(session_clock, &time);
    return (uint64_t)time.tv_sec * 1000000000 + (uint64_t)time.tv_nsec;
}

/* What the call printed, also where the room was too small. */
static void keep_printed(struct mseplay_session **session, struct text *text, size_t written)
{
    if (written > ROOM)
        mseplay_printed(session, text_room(text, written), written);
    text->length += written;
}

static uint8_t step(struct mseplay_session **session, const uint8_t *line, size_t length, struct text *text, uint8_t *refused)
{
    size_t written;
    uint8_t *room = text_room(text, ROOM);
    uint8_t status = mseplay_step(session, line, length, room, ROOM, &written, refused);
    keep_printed(session, text, written);
    return status;
}

static uint8_t block(struct mseplay_session **session, struct text *text)
{
    size_t written;
    uint8_t *room = text_room(text, ROOM);
    uint8_t status = mseplay_block(session, room, ROOM, &written);
    keep_printed(session, text, written);
    return status;
}

/* The line of what a drain does next, or the status that there is none. */
static uint8_t next_line(struct mseplay_session **session, struct text *line)
{
    uint32_t buffer = FILL;
    uint8_t next = mseplay_next(session, &buffer);
    if (next == MSEPLAY_NO_MEMORY || next == MSEPLAY_NO_SESSION) {
        CHECK(buffer == FILL);
        return next;
    }
    CHECK(next <= MSEPLAY_NEXT_ELEMENT && (buffer == 0 || next == MSEPLAY_NEXT_WORK));
    if (next == MSEPLAY_NEXT_WORK)
        text_format(line, "work %u", buffer);
    else
        text_word(line, next == MSEPLAY_NEXT_FIRE ? "fire" : next == MSEPLAY_NEXT_ELEMENT ? "element" : "none");
    return MSEPLAY_DONE;
}

static uint8_t drain_by_next(struct mseplay_session **session, struct text *text, uint8_t *refused)
{
    static struct text line;
    for (;;) {
        line.length = 0;
        uint8_t status = next_line(session, &line);
        if (status != MSEPLAY_DONE || line.at[0] == 'n')
            return status;
        status = step(session, line.at, line.length, text, refused);
        CHECK(*refused == MSEPLAY_NOT_REFUSED);
        if (status != MSEPLAY_DONE)
            return status;
    }
}

uint8_t perform(struct mseplay_session **session, const struct plan *plan, const struct action *action,
                struct text *text, uint8_t *refused)
{
    const uint8_t *bytes = plan->bytes.at + action->start;
    *refused = MSEPLAY_NOT_REFUSED;
    switch (action->kind) {
    case ACT_GIVE:
        return mseplay_give(session, bytes, action->length);
    case ACT_STEP:
        return step(session, bytes, action->length, text, refused);
    case ACT_FORGET:
        return mseplay_forget(session, action->number);
    case ACT_LOOK:
        return look_text(session, text);
    case ACT_LOOK_AT:
        return look_at_text(session, (uint32_t)action->number, text);
    case ACT_BLOCK:
        return block(session, text);
    case ACT_NEXT:
        return next_line(session, text);
    case ACT_NEXT_DRAIN:
        return drain_by_next(session, text, refused);
    default:
        memset(text_room(text, action->number), FILL, action->number);
        mseplay_printed(session, text->at + text->length, action->number);
        text->length += action->number;
        return MSEPLAY_DONE;
    }
}

/* The block of looks is the block, and nothing is left of a drain that was done. */
static void check_stand(struct mseplay_session **session, const struct plan *plan, const struct record *record, size_t i)
{
    static struct text text;
    const struct action *action = &plan->actions[i];
    const struct result *result = &record->results[i];
    text.length = 0;
    if (action->kind == ACT_BLOCK && i + 1 == plan->count) {
        CHECK(block_of_looks(session, &text) == MSEPLAY_DONE);
        CHECK(text.length == result->length && memcmp(text.at, record->told.at + result->start, text.length) == 0);
    }
    if (action->kind == ACT_STEP && action->length == 5 && memcmp(plan->bytes.at + action->start, "drain", 5) == 0) {
        CHECK(next_line(session, &text) == MSEPLAY_DONE);
        CHECK(text.at[0] == 'n');
    }
}

void perform_plan(const struct plan *plan, struct record *record)
{
    struct mseplay_session *session = NULL;
    if (record->room < plan->count) {
        record->room = plan->count * 2;
        record->results = realloc(record->results, record->room * sizeof *record->results);
        CHECK(record->results != NULL);
    }
    record->told.length = 0;
    CHECK(mseplay_open(plan->quota, plan->gap, &session) == MSEPLAY_DONE && session != NULL);
    for (size_t i = 0; i < plan->count; i++) {
        struct result *result = &record->results[i];
        result->start = record->told.length;
        uint64_t from = now();
        result->status = perform(&session, plan, &plan->actions[i], &record->told, &result->refused);
        result->time = now() - from;
        result->length = record->told.length - result->start;
        check_stand(&session, plan, record, i);
    }
    mseplay_close(&session);
    CHECK(session == NULL && heap.blocks == 0 && heap.bytes == 0);
}

void printed_of(const struct plan *plan, const struct record *record, struct text *text)
{
    text->length = 0;
    for (size_t i = 0; i < plan->count; i++) {
        const struct result *result = &record->results[i];
        enum action_kind kind = plan->actions[i].kind;
        if (kind == ACT_STEP || kind == ACT_NEXT_DRAIN || i + 1 == plan->count)
            text_bytes(text, record->told.at + result->start, result->length);
    }
}
