/* Makes the actions of a session, of its seed alone. */
#include <stdlib.h>
#include <string.h>

#include "hostile.h"

static void add_action(struct plan *plan, enum action_kind kind, size_t start, uint64_t number)
{
    if (plan->count == plan->room) {
        plan->room = 2 * plan->room + 64;
        plan->actions = realloc(plan->actions, plan->room * sizeof *plan->actions);
        CHECK(plan->actions != NULL);
    }
    plan->actions[plan->count++] = (struct action){kind, start, plan->bytes.length - start, number};
}

static void add_line(struct plan *plan, const char *line)
{
    size_t start = plan->bytes.length;
    text_word(&plan->bytes, line);
    add_action(plan, ACT_STEP, start, 0);
}

static void give(struct plan *plan, struct chance *chance, const struct corpus *corpus, enum bytes_kind kind)
{
    struct scene *scene = &plan->scene;
    if (scene->given == COUNT_OF(scene->lengths))
        return;
    size_t start = plan->bytes.length;
    hostile_bytes(&plan->bytes, chance, corpus, kind);
    scene->lengths[scene->given++] = plan->bytes.length - start;
    add_action(plan, ACT_GIVE, start, 0);
}

static enum bytes_kind any_kind(struct chance *chance)
{
    static const enum bytes_kind kinds[] = {BYTES_MP4, BYTES_MP4, BYTES_MP4, BYTES_ADTS, BYTES_OTHER};
    return ONE_OF(chance, kinds);
}

/* What an append is followed by. */
static void add_work(struct plan *plan, struct chance *chance)
{
    switch (below(chance, 8)) {
    case 0:
        for (size_t i = below(chance, 5); i > 0; i--)
            add_line(plan, one_in(chance, 2) ? "fire" : one_in(chance, 3) ? "element" : "work 0");
        return;
    case 1:
        add_action(plan, ACT_NEXT, plan->bytes.length, 0);
        add_action(plan, ACT_NEXT_DRAIN, plan->bytes.length, 0);
        return;
    case 2:
        return;
    default:
        add_line(plan, "drain");
    }
}

/* A blob in pieces, one append each. */
static void append_pieces(struct plan *plan, struct chance *chance, size_t buffer, size_t blob)
{
    size_t length = plan->scene.lengths[blob], place = 0;
    for (size_t i = 1 + below(chance, 6); i > 0; i--) {
        size_t count = i == 1 ? length - place : below(chance, length - place + 1), start = plan->bytes.length;
        text_format(&plan->bytes, "append %zu %zu %zu %zu", buffer, blob, place, count);
        add_action(plan, ACT_STEP, start, 0);
        add_work(plan, chance);
        place += count;
    }
}

static void append(struct plan *plan, struct chance *chance)
{
    struct scene *scene = &plan->scene;
    size_t buffer = scene->buffers > 1 ? below(chance, scene->buffers) : 0, blob = below(chance, scene->given);
    if (one_in(chance, 3)) {
        append_pieces(plan, chance, buffer, blob);
        return;
    }
    size_t start = plan->bytes.length;
    text_format(&plan->bytes, "append %zu %zu", buffer, blob);
    add_action(plan, ACT_STEP, start, 0);
    add_work(plan, chance);
}

static void add_buffer(struct plan *plan, enum bytes_kind kind)
{
    add_line(plan, kind == BYTES_ADTS ? "add audio/aac" : "add video/mp4");
    plan->scene.buffers++;
}

static void add_seen(struct plan *plan, struct chance *chance)
{
    size_t none = plan->bytes.length;
    switch (below(chance, 6)) {
    case 0:
        add_action(plan, ACT_LOOK, none, 0);
        return;
    case 1:
        add_action(plan, ACT_LOOK_AT, none, one_in(chance, 8) ? draw(chance) >> 32 : below(chance, plan->scene.buffers + 1));
        return;
    case 2:
        add_action(plan, ACT_BLOCK, none, 0);
        return;
    case 3:
        add_action(plan, ACT_NEXT, none, 0);
        return;
    case 4:
        add_action(plan, ACT_PRINTED, none, below(chance, 300));
        return;
    default:
        if (one_in(chance, 4))
            add_action(plan, ACT_FORGET, none, one_in(chance, 12) ? draw(chance) : below(chance, plan->scene.given + 1));
    }
}

static void add_any(struct plan *plan, struct chance *chance, const struct corpus *corpus)
{
    struct scene *scene = &plan->scene;
    size_t start = plan->bytes.length, choice = below(chance, 32);
    if (choice < 8 && scene->given > 0) {
        append(plan, chance);
    } else if (choice < 11) {
        add_work(plan, chance);
    } else if (choice < 15) {
        add_seen(plan, chance);
    } else if (choice < 17) {
        give(plan, chance, corpus, any_kind(chance));
    } else if (choice < 19) {
        make_bad_line(&plan->bytes, chance, scene);
        add_action(plan, ACT_STEP, start, 0);
    } else {
        make_call(&plan->bytes, chance, scene);
        add_action(plan, ACT_STEP, start, 0);
    }
}

/* What a player does first. */
static void begin_player(struct plan *plan, struct chance *chance, const struct corpus *corpus)
{
    enum bytes_kind kind = one_in(chance, 4) ? BYTES_ADTS : BYTES_MP4;
    add_line(plan, "attach");
    add_buffer(plan, kind);
    if (one_in(chance, 4))
        add_buffer(plan, any_kind(chance));
    if (one_in(chance, 2))
        add_line(plan, "drain");
    if (one_in(chance, 50))
        add_line(plan, one_in(chance, 2) ? "offset 0 9198371702336358468910/1" : "offset 0 -9198371702336358468910/1");
    give(plan, chance, corpus, kind);
    append(plan, chance);
}

/* More buffers than a list may have. */
static void begin_many(struct plan *plan, struct chance *chance)
{
    add_line(plan, "attach");
    for (size_t i = below(chance, 18); i > 0; i--)
        add_buffer(plan, any_kind(chance));
}

static uint64_t any_quota(struct chance *chance)
{
    static const uint64_t quotas[] = {1, 2, 10, 100, UINT64_C(1) << 40};
    return one_in(chance, 2) ? UINT64_C(1) << 27 : one_in(chance, 3) ? ONE_OF(chance, quotas) : 1 + below(chance, 200);
}

static uint64_t any_gap(struct chance *chance)
{
    static const uint64_t gaps[] = {1, 141120, UINT64_C(4704000000), UINT64_C(141120000000), UINT64_C(1) << 40};
    return one_in(chance, 2) ? 0 : one_in(chance, 2) ? ONE_OF(chance, gaps) : below(chance, 20000000000);
}

void make_plan(struct plan *plan, uint64_t seed, const struct corpus *corpus)
{
    struct chance chance = chance_of(seed);
    plan->seed = seed;
    plan->quota = any_quota(&chance);
    plan->gap = any_gap(&chance);
    plan->count = plan->bytes.length = 0;
    plan->scene.given = plan->scene.buffers = 0;
    if (one_in(&chance, 100))
        begin_many(plan, &chance);
    if (!one_in(&chance, 8))
        begin_player(plan, &chance, corpus);
    for (size_t i = below(&chance, one_in(&chance, 50) ? 100 : 16); i > 0; i--)
        add_any(plan, &chance, corpus);
    add_action(plan, ACT_BLOCK, plan->bytes.length, 0);
}
