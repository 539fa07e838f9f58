/* Puts what was done, and what it brought, on standard output, for replay.mjs to do it again. Numbers have the lowest byte first. */
#include <stdio.h>
#include <string.h>

#include "hostile.h"

bool is_dumping;

static void put(uint64_t number, size_t bytes)
{
    for (; bytes > 0; bytes--, number >>= 8)
        putchar_unlocked((int)(number & 255));
}

static void put_bytes(const void *bytes, size_t length)
{
    put(length, 4);
    fwrite(bytes, 1, length, stdout);
}

void dump_session(const struct plan *plan, const struct record *record)
{
    if (!is_dumping)
        return;
    put('S', 1);
    put(plan->seed, 8);
    put(plan->quota, 8);
    put(plan->gap, 8);
    put(plan->count, 4);
    for (size_t i = 0; i < plan->count; i++) {
        const struct action *action = &plan->actions[i];
        const struct result *result = &record->results[i];
        put(action->kind, 1);
        put(result->status, 1);
        put(result->refused, 1);
        put(action->number, 8);
        put_bytes(plan->bytes.at + action->start, action->length);
        put_bytes(record->told.at + result->start, result->length);
    }
}

void dump_run(const struct text *script, const char *const *words, size_t count, int status, const struct text *printed)
{
    if (!is_dumping)
        return;
    put('R', 1);
    put((uint64_t)status, 1);
    put(count, 1);
    for (size_t i = 0; i < count; i++)
        put_bytes(words[i], strlen(words[i]));
    put_bytes(script->at, script->length);
    put_bytes(printed->at, printed->length);
}

void dump_end(void)
{
    put('E', 1);
}
