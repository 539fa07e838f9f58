/* Each allocation of a session refused: that one alone, and that one with all behind it. A call that was refused one may
 * do without it: then it does what it did with all memory. */
#include <string.h>

#include "hostile.h"

static bool is_front(const struct text *text, const struct record *record, const struct result *result)
{
    return text->length <= result->length &&
           (text->length == 0 || memcmp(text->at, record->told.at + result->start, text->length) == 0);
}

static bool is_same(const struct text *text, const struct record *record, const struct result *result)
{
    return text->length == result->length && is_front(text, record, result);
}

/* Does an action in which memory was refused; whether the session has ended. */
static bool check_refused(struct mseplay_session **session, const struct plan *plan, const struct record *record, size_t i,
                          const struct text *text)
{
    static struct text again;
    uint8_t refused;
    const struct action *action = &plan->actions[i];
    const struct result *result = &record->results[i];
    CHECK(is_front(text, record, result));
    if (action->kind == ACT_STEP || action->kind == ACT_NEXT_DRAIN)
        return true;
    CHECK(action->kind == ACT_BLOCK || text->length == 0);
    heap.refused_from = UINT64_MAX;
    again.length = 0;
    CHECK(perform(session, plan, action, &again, &refused) == result->status && is_same(&again, record, result));
    return false;
}

/* A session that has ended says so to each call. */
static void check_ended(struct mseplay_session **session, const struct plan *plan, size_t from, struct text *text)
{
    uint8_t refused;
    for (size_t i = from; i < plan->count; i++) {
        if (plan->actions[i].kind == ACT_PRINTED)
            continue;
        text->length = 0;
        CHECK(perform(session, plan, &plan->actions[i], text, &refused) == MSEPLAY_NO_MEMORY);
        CHECK(text->length == 0 && refused == MSEPLAY_NOT_REFUSED);
    }
    counts.refused_ends++;
}

/* False where no allocation was refused. */
static bool refuse(const struct plan *plan, const struct record *record, uint64_t from, uint64_t until)
{
    static struct text text;
    struct mseplay_session *session = NULL;
    uint8_t refused;
    heap_anew();
    heap.refused_from = from;
    heap.refused_until = until;
    bool has_ended = mseplay_open(plan->quota, plan->gap, &session) != MSEPLAY_DONE;
    CHECK((!has_ended || heap.refused > 0) && has_ended == (session == NULL));
    for (size_t i = 0; i < plan->count && !has_ended; i++) {
        const struct result *result = &record->results[i];
        uint64_t before = heap.refused;
        text.length = 0;
        uint8_t status = perform(&session, plan, &plan->actions[i], &text, &refused);
        CHECK(status != MSEPLAY_NO_MEMORY || heap.refused > before);
        if (status == MSEPLAY_NO_MEMORY)
            has_ended = check_refused(&session, plan, record, i, &text);
        else
            CHECK(status == result->status && refused == result->refused &&
                  (plan->actions[i].kind == ACT_PRINTED || is_same(&text, record, result)));
        if (has_ended)
            check_ended(&session, plan, i, &text);
    }
    bool has_refused = heap.refused > 0;
    mseplay_close(&session);
    CHECK(session == NULL && heap.blocks == 0 && heap.bytes == 0);
    heap_anew();
    counts.refused_runs++;
    return has_refused;
}

void check_memory(const struct plan *plan, const struct record *record)
{
    for (uint64_t n = 0; refuse(plan, record, n, n + 1); n++)
        refuse(plan, record, n, UINT64_MAX);
}
