/* What an action may bring, by mseplay.h and docs/SCRIPTS.md. */
#include <string.h>

#include "hostile.h"

/* What is known of a session from what it answered. */
struct known {
    size_t given, forgotten, lengths[64];
    uint64_t made;
    const struct result *printed; /* what the last step or block printed; NULL where it is not known */
};

/* The refusal that comes before the call's own rule. */
static int first_refusal(const struct step *step, const struct known *known)
{
    if (step->names_buffer && step->buffer >= known->made)
        return MSEPLAY_NO_SUCH_BUFFER;
    for (size_t i = 0; i < step->time_count; i++)
        if (step->kind->finite[i] && step->times[i].kind != MSEPLAY_TICKS)
            return MSEPLAY_TYPE_ERROR;
    if (step->has_part && (step->first > known->lengths[step->blob] || step->length > known->lengths[step->blob] - step->first))
        return MSEPLAY_NO_SUCH_BYTES;
    return MSEPLAY_NOT_REFUSED;
}

static void check_call(const struct step *step, const struct text *line, const struct result *result, const uint8_t *at,
                       struct known *known)
{
    int refused, first = first_refusal(step, known);
    const uint8_t *end = at + result->length;
    CHECK(result->length > line->length + 7 && memcmp(at, "call ", 5) == 0);
    CHECK(memcmp(at + 5, line->at, line->length) == 0 && memcmp(at + 5 + line->length, ": ", 2) == 0);
    at += 7 + line->length;
    CHECK(read_answer(&at, end, step->kind->answer, &refused) && at == end);
    CHECK(refused == result->refused);
    CHECK(first == MSEPLAY_NOT_REFUSED || refused == first);
    CHECK(first != MSEPLAY_NOT_REFUSED || refused == MSEPLAY_NOT_REFUSED || (step->kind->refusals >> refused & 1) != 0);
    if (strcmp(step->kind->name, "add") == 0 && refused == MSEPLAY_NOT_REFUSED)
        known->made++;
    counts.refusals[refused]++;
}

static void check_step(const uint8_t *line, size_t length, const struct result *result, const uint8_t *at, struct known *known)
{
    static struct text text;
    struct step step;
    text.length = 0;
    bool is_step = read_step(line, length, &step, &text);
    bool has_bytes = is_step && (!step.names_blob || (step.blob < known->given && step.blob >= known->forgotten));
    CHECK(result->status == (!is_step ? MSEPLAY_NOT_THERE : !has_bytes ? MSEPLAY_NO_BYTES : MSEPLAY_DONE));
    known->printed = result;
    if (result->status != MSEPLAY_DONE) {
        CHECK(result->refused == MSEPLAY_NOT_REFUSED && result->length == 0);
        return;
    }
    if (step.kind->is_call) {
        check_call(&step, &text, result, at, known);
        return;
    }
    const uint8_t *end = at + result->length;
    size_t most = step.kind->name[0] == 'd' ? SIZE_MAX : step.kind->name[0] == 'f';
    CHECK(result->refused == MSEPLAY_NOT_REFUSED && read_events(&at, end, most) && at == end);
}

static void check_printed(const struct action *action, const uint8_t *at, const uint8_t *told, const struct known *known)
{
    if (known->printed == NULL)
        return;
    size_t length = known->printed->length;
    size_t count = action->number < length ? action->number : length;
    CHECK(memcmp(at, told + known->printed->start, count) == 0);
    for (size_t i = count; i < action->number; i++)
        CHECK(at[i] == 0x55);
}

static void check_done(const struct action *action, const struct result *result, const uint8_t *at, struct known *known)
{
    const uint8_t *end = at + result->length;
    CHECK(result->status == MSEPLAY_DONE || (action->kind == ACT_LOOK_AT && result->status == MSEPLAY_NOT_THERE));
    if (action->kind == ACT_GIVE)
        known->lengths[known->given++] = action->length;
    if (action->kind == ACT_FORGET && action->number > known->forgotten)
        known->forgotten = action->number < known->given ? action->number : known->given;
    if (action->kind == ACT_LOOK_AT && action->number >= known->made)
        CHECK(result->status == MSEPLAY_NOT_THERE);
    if (action->kind == ACT_NEXT_DRAIN) {
        known->printed = NULL;
        CHECK(read_events(&at, end, SIZE_MAX) && at == end);
    }
    if (action->kind == ACT_BLOCK) {
        known->printed = result;
        CHECK(read_block(&at, end, true) && at == end);
    }
}

void check_record(const struct plan *plan, const struct record *record)
{
    static struct known known;
    memset(&known, 0, sizeof known);
    for (size_t i = 0; i < plan->count; i++) {
        const struct action *action = &plan->actions[i];
        const struct result *result = &record->results[i];
        const uint8_t *at = record->told.at + result->start;
        if (action->kind == ACT_STEP)
            check_step(plan->bytes.at + action->start, action->length, result, at, &known);
        else if (action->kind == ACT_PRINTED)
            check_printed(action, at, record->told.at, &known);
        else
            check_done(action, result, at, &known);
    }
}
