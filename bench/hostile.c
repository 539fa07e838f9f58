/* Hostile use of the static library: sessions that come of seeds, and what they bring is checked.
 *
 *     hostile FIRST COUNT [memory | dump] FILE ..
 *
 * does the sessions of the seeds FIRST to FIRST + COUNT - 1, over the bytes of the files, and prints what was counted as a
 * line of JSON. Where something is not as it must be it says what and the seed, and ends with status 1. With `memory` each
 * allocation of each session is refused in turn. With `dump` what was done is put out for hostile/replay.mjs in place of the line.
 *
 * bench/hostile.py builds it, and says what is checked. */
#include <signal.h>
#include <stdio.h>
#include <stdlib.h>
#include <string.h>
#include <time.h>
#include <unistd.h>

#include "hostile.h"

#if defined(__SANITIZE_ADDRESS__)
#define IS_SANITIZED 1
#elif defined(__has_feature)
#if __has_feature(address_sanitizer)
#define IS_SANITIZED 1
#endif
#endif
#ifndef IS_SANITIZED
#define IS_SANITIZED 0
#endif

/* The bound of an action's time, in nanoseconds. */
#define BASE_TIME UINT64_C(5000000)
#define TIME_OF_BYTE 1000
#define TIME_OF_SAMPLE 4000

/* Seconds in which so many sessions must be done. */
enum { PATIENCE = 600, ROUND = 64 };

struct counts counts;
extern clockid_t session_clock;
/* The session that is done. */
static struct {
    volatile uint64_t seed;
    struct plan plan;
    struct record record;
    struct played played;
} now;

static void say_seed(void)
{
    fprintf(stderr, "hostile: seed %llu\n", (unsigned long long)now.seed);
}

static void say_text(const char *name, const uint8_t *at, size_t length)
{
    fprintf(stderr, "%s, %zu bytes: ", name, length);
    fwrite(at, 1, length < 4000 ? length : 4000, stderr);
    fprintf(stderr, "\n");
}

static void say_hex(const uint8_t *at, size_t length)
{
    fprintf(stderr, "blob, %zu bytes: ", length);
    for (size_t i = 0; i < length && i < 20000; i++)
        fprintf(stderr, "%02x", at[i]);
    fprintf(stderr, "\n");
}

/* The blobs and steps of the session, with the status and the time of each. */
static void say_session(void)
{
    for (size_t i = 0; i < now.plan.count; i++) {
        const struct action *action = &now.plan.actions[i];
        const struct result *result = &now.record.results[i];
        const uint8_t *at = now.plan.bytes.at + action->start;
        if (action->kind == ACT_GIVE)
            say_hex(at, action->length);
        if (action->kind != ACT_STEP && action->kind != ACT_NEXT_DRAIN)
            continue;
        fprintf(stderr, "status %d, %llu ns, ", result->status, (unsigned long long)result->time);
        if (action->kind == ACT_STEP)
            say_text("step", at, action->length);
        else
            say_text("drain by next", at, 0);
    }
}

_Noreturn void not_so(const char *file, int line, const char *fact)
{
    fprintf(stderr, "%s:%d: not so: %s\n", file, line, fact);
    say_session();
    say_text("last script", now.played.script.at, now.played.script.length);
    say_text("last printed", now.played.printed.at, now.played.printed.length);
    say_seed();
    exit(1);
}

static void stopped(int number)
{
    fprintf(stderr, "hostile: signal %d\n", number);
    say_seed();
    _exit(1);
}

/* The bytes that a step appends, where it was not refused. */
static bool appended(const struct plan *plan, const struct result *result, const struct action *action, struct step *step,
                     const struct action *const *blobs, struct mseplay_byte_slice *bytes)
{
    static struct text text;
    const uint8_t *at = plan->bytes.at + action->start;
    text.length = 0;
    if (action->kind != ACT_STEP || at[0] != 'a' || result->status != MSEPLAY_DONE || result->refused != MSEPLAY_NOT_REFUSED ||
        !read_step(at, action->length, step, &text) || !step->names_blob)
        return false;
    const struct action *blob = blobs[step->blob];
    bytes->data = plan->bytes.at + blob->start + (step->has_part ? step->first : 0);
    bytes->length = step->has_part ? step->length : blob->length;
    return true;
}

/* Bytes and samples of a session, each append counted; a run may lie over the seam of two. */
static void weigh(const struct plan *plan, const struct record *record, uint64_t *bytes, uint64_t *samples)
{
    static struct text strings[32];
    const struct action *blobs[COUNT_OF(plan->scene.lengths)];
    size_t given = 0;
    struct step step;
    struct mseplay_byte_slice part;
    *bytes = plan->bytes.length;
    *samples = 0;
    for (size_t i = 0; i < plan->count; i++) {
        if (plan->actions[i].kind == ACT_GIVE)
            blobs[given++] = &plan->actions[i];
        if (!appended(plan, &record->results[i], &plan->actions[i], &step, blobs, &part))
            continue;
        text_bytes(&strings[step.buffer % COUNT_OF(strings)], part.data, part.length);
        *bytes += part.length;
    }
    for (size_t i = 0; i < COUNT_OF(strings); i++) {
        *samples += samples_of(strings[i].at, strings[i].length);
        strings[i].length = 0;
    }
}

static uint64_t longest_of(const struct plan *plan, const struct record *record)
{
    uint64_t longest = 0;
    for (size_t i = 0; i < plan->count; i++)
        if (record->results[i].time > longest)
            longest = record->results[i].time;
    return longest;
}

/* The longest action by the wall clock, or by processor time where that would be the longest so far. */
static void check_time(const struct plan *plan, struct record *record, uint64_t bytes, uint64_t samples)
{
    uint64_t longest = longest_of(plan, record);
    if (longest <= counts.longest_step)
        return;
    session_clock = CLOCK_THREAD_CPUTIME_ID;
    perform_plan(plan, record);
    session_clock = CLOCK_MONOTONIC;
    longest = longest_of(plan, record);
    CHECK(longest < (BASE_TIME + bytes * TIME_OF_BYTE + samples * TIME_OF_SAMPLE) * (IS_SANITIZED ? 20 : 1));
    if (longest <= counts.longest_step)
        return;
    counts.longest_step = longest;
    counts.longest_seed = plan->seed;
    counts.longest_bytes = bytes;
    counts.longest_samples = samples;
}

static void count_memory(const struct plan *plan, uint64_t samples)
{
    size_t input = plan->bytes.length;
    double ratio = (double)heap.most / (double)(input + 1000);
    if (heap.most > counts.most_memory) {
        counts.most_memory = heap.most;
        counts.most_input = input;
        counts.most_seed = plan->seed;
        counts.most_samples = samples;
    }
    if (samples < 2000 && ratio > counts.most_ratio) {
        counts.most_ratio = ratio;
        counts.ratio_memory = heap.most;
        counts.ratio_input = input;
        counts.ratio_seed = plan->seed;
    }
}

static void count_results(const struct plan *plan, const struct record *record)
{
    counts.sessions++;
    counts.bytes += plan->bytes.length;
    for (size_t i = 0; i < plan->count; i++) {
        enum action_kind kind = plan->actions[i].kind;
        counts.gives += kind == ACT_GIVE;
        counts.looks += kind == ACT_LOOK || kind == ACT_LOOK_AT || kind == ACT_NEXT;
        counts.blocks += kind == ACT_BLOCK;
        counts.steps += kind == ACT_STEP || kind == ACT_NEXT_DRAIN;
        if (kind == ACT_STEP)
            counts.statuses[record->results[i].status & 15]++;
    }
    const struct result *last = &record->results[plan->count - 1];
    const uint8_t *end = record->told.at + last->start + last->length, *at = end;
    while (at > record->told.at + last->start && (at == end || at[-1] != '\n'))
        at--;
    counts.faults[end - at > 6 && memcmp(at, "fault ", 6) == 0 ? strtoul((const char *)at + 6, NULL, 10) % 19 : 0]++;
}

static void do_session(uint64_t seed, const struct corpus *corpus, bool is_memory)
{
    uint64_t bytes, samples;
    now.seed = seed;
    make_plan(&now.plan, seed, corpus);
    struct chance chance = chance_of(~seed);
    heap_anew();
    perform_plan(&now.plan, &now.record);
    weigh(&now.plan, &now.record, &bytes, &samples);
    count_memory(&now.plan, samples);
    check_record(&now.plan, &now.record);
    count_results(&now.plan, &now.record);
    dump_session(&now.plan, &now.record);
    check_time(&now.plan, &now.record, bytes, samples);
    check_played(&now.plan, &now.record, &now.played);
    if (is_memory) {
        check_memory(&now.plan, &now.record);
        check_memory_of_play(&now.plan, &now.played);
        return;
    }
    if (one_in(&chance, 3))
        check_rules(&now.plan, &now.record, &chance, &now.played);
    if (one_in(&chance, 8))
        check_damaged_script(&now.plan, &chance, &now.played);
    if (one_in(&chance, 16))
        check_commands(&now.plan, &chance, &now.played);
}

static void print_list(const char *name, const uint64_t *list, size_t count)
{
    printf("\"%s\": {", name);
    for (size_t i = 0, shown = 0; i < count; i++)
        if (list[i] != 0)
            printf("%s\"%zu\": %llu", shown++ > 0 ? ", " : "", i, (unsigned long long)list[i]);
    printf("}, ");
}

static void print_number(const char *name, uint64_t number)
{
    printf("\"%s\": %llu, ", name, (unsigned long long)number);
}

static void print_counts(uint64_t first)
{
    printf("{");
    print_number("first", first);
    print_number("sessions", counts.sessions);
    print_number("steps", counts.steps);
    print_number("gives", counts.gives);
    print_number("looks", counts.looks);
    print_number("blocks", counts.blocks);
    print_number("bytes", counts.bytes);
    print_number("plays", counts.plays);
    print_number("refused_runs", counts.refused_runs);
    print_number("refused_ends", counts.refused_ends);
    print_list("statuses", counts.statuses, 16);
    print_list("refusals", counts.refusals, 8);
    print_list("play_statuses", counts.play_statuses, 16);
    print_list("faults", counts.faults, 19);
    printf("\"longest\": [%llu, %llu, %llu, %llu], ", (unsigned long long)counts.longest_step,
           (unsigned long long)counts.longest_bytes, (unsigned long long)counts.longest_samples,
           (unsigned long long)counts.longest_seed);
    printf("\"most\": [%llu, %llu, %llu, %llu], ", (unsigned long long)counts.most_memory,
           (unsigned long long)counts.most_input, (unsigned long long)counts.most_samples,
           (unsigned long long)counts.most_seed);
    printf("\"ratio\": [%.3f, %llu, %llu, %llu]}\n", counts.most_ratio, (unsigned long long)counts.ratio_memory,
           (unsigned long long)counts.ratio_input, (unsigned long long)counts.ratio_seed);
}

static void catch_signals(void)
{
    static const int numbers[] = {SIGALRM, SIGSEGV, SIGBUS, SIGILL, SIGFPE, SIGABRT};
    for (size_t i = 0; i < COUNT_OF(numbers); i++)
        if (!IS_SANITIZED || numbers[i] == SIGALRM)
            signal(numbers[i], stopped);
}

#if IS_SANITIZED
void __sanitizer_set_death_callback(void (*callback)(void));
#endif

int main(int count, char **words)
{
    static struct corpus corpus;
    if (count < 4) {
        fprintf(stderr, "usage: hostile FIRST COUNT [memory | dump] FILE ..\n");
        return 2;
    }
    uint64_t first = strtoull(words[1], NULL, 10), sessions = strtoull(words[2], NULL, 10);
    bool is_memory = strcmp(words[3], "memory") == 0;
    is_dumping = strcmp(words[3], "dump") == 0;
    bool has_word = is_memory || is_dumping;
    corpus_read(&corpus, words + 3 + has_word, (size_t)(count - 3 - has_word));
    catch_signals();
#if IS_SANITIZED
    __sanitizer_set_death_callback(say_seed);
#endif
    for (uint64_t i = 0; i < sessions; i++) {
        if (i % ROUND == 0)
            alarm(PATIENCE);
        do_session(first + i, &corpus, is_memory);
    }
    if (is_dumping)
        dump_end();
    else
        print_counts(first);
    return 0;
}
