/* Scripts, and other commands, in one call of mseplay_run. */
#include <stdio.h>
#include <string.h>

#include "hostile.h"

static const char script_name[] = "s";

/* The allocations that are refused in a call. */
static uint64_t refused_from = UINT64_MAX, refused_until = UINT64_MAX;

static struct mseplay_byte_slice slice(const void *bytes, size_t length)
{
    return (struct mseplay_byte_slice){bytes, length};
}

/* Does a call with the script and the blobs of a plan as files. */
static int run(const struct plan *plan, const struct text *script, const char *const *words, size_t count, struct text *printed)
{
    static char names[COUNT_OF(plan->scene.lengths)][4];
    static struct mseplay_file files[COUNT_OF(names) + 1];
    struct mseplay_byte_slice list[4];
    size_t file_count = 1, written;
    files[0] = (struct mseplay_file){slice(script_name, 1), slice(script->at, script->length)};
    for (size_t i = 0; i < plan->count; i++)
        if (plan->actions[i].kind == ACT_GIVE) {
            char *name = names[file_count - 1];
            size_t length = (size_t)snprintf(name, 4, "b%zu", file_count - 1);
            files[file_count++] = (struct mseplay_file){
                slice(name, length), slice(plan->bytes.at + plan->actions[i].start, plan->actions[i].length)};
        }
    for (size_t i = 0; i < count; i++)
        list[i] = slice(words[i], strlen(words[i]));
    printed->length = 0;
    text_room(printed, 2000);
    heap_anew();
    heap.refused_from = refused_from;
    heap.refused_until = refused_until;
    int status = mseplay_run(list, count, files, file_count, printed->at, printed->size, &written);
    if (written > printed->size) {
        text_room(printed, written);
        CHECK(mseplay_run(list, count, files, file_count, printed->at, printed->size, &written) == status);
    }
    printed->length = written;
    CHECK(heap.blocks == 0 && heap.bytes == 0);
    counts.plays++;
    counts.play_statuses[status & 15]++;
    dump_run(script, words, count, status, printed);
    return status;
}

void play_again(const struct plan *plan, struct played *played)
{
    static const char *const words[] = {"play", script_name};
    played->status = run(plan, &played->script, words, 2, &played->printed);
}

/* A line as a text of TOML. */
static void put_quoted(struct text *text, const uint8_t *line, size_t length)
{
    text_word(text, "\"");
    for (size_t i = 0; i < length; i++) {
        if (line[i] == '"' || line[i] == '\\')
            text_word(text, "\\");
        text_bytes(text, line + i, 1);
    }
    text_word(text, "\",");
}

static bool is_of_script(const struct action *action, const struct result *result)
{
    return (action->kind == ACT_STEP || action->kind == ACT_NEXT_DRAIN) && result->status == MSEPLAY_DONE;
}

/* The script of the steps that were done. */
static void put_script(const struct plan *plan, const struct record *record, struct text *text)
{
    text->length = 0;
    text_format(text, "quota = %llu\ngap = %llu\nblobs = [", (unsigned long long)plan->quota, (unsigned long long)plan->gap);
    for (size_t i = 0; i < plan->scene.given; i++)
        text_format(text, "'file b%zu', ", i);
    text_word(text, "]\nsteps = [");
    for (size_t i = 0; i < plan->count; i++) {
        const struct action *action = &plan->actions[i];
        if (!is_of_script(action, &record->results[i]))
            continue;
        if (action->kind == ACT_STEP)
            put_quoted(text, plan->bytes.at + action->start, action->length);
        else
            text_word(text, "'drain',");
    }
    text_word(text, "]\n");
}

void check_played(const struct plan *plan, const struct record *record, struct played *played)
{
    static struct text expected;
    put_script(plan, record, &played->script);
    play_again(plan, played);
    printed_of(plan, record, &expected);
    CHECK(played->status == 0);
    CHECK(played->printed.length == expected.length);
    CHECK(memcmp(played->printed.at, expected.at, expected.length) == 0);
}

/* The same script with some allocations refused; false where none was. */
static bool play_refused(const struct plan *plan, struct played *played, const struct text *whole, uint64_t from, uint64_t until)
{
    refused_from = from;
    refused_until = until;
    play_again(plan, played);
    refused_from = refused_until = UINT64_MAX;
    counts.refused_runs++;
    CHECK(played->printed.length <= whole->length && memcmp(played->printed.at, whole->at, played->printed.length) == 0);
    CHECK(played->status == MSEPLAY_NO_MEMORY ? heap.refused > 0 : played->status == 0 && played->printed.length == whole->length);
    return heap.refused > 0;
}

void check_memory_of_play(const struct plan *plan, struct played *played)
{
    static struct text whole;
    whole.length = 0;
    text_bytes(&whole, played->printed.at, played->printed.length);
    for (uint64_t n = 0; play_refused(plan, played, &whole, n, n + 1); n++)
        play_refused(plan, played, &whole, n, UINT64_MAX);
}

static void put_event(struct text *text, struct chance *chance)
{
    static const char *const events[] = {
        "source sourceopen", "source sourceended", "sourcebuffers addsourcebuffer", "sourcebuffers removesourcebuffer",
        "activesourcebuffers addsourcebuffer", "activesourcebuffers removesourcebuffer", "buffer 0 updatestart",
        "buffer 0 update", "buffer 0 updateend", "buffer 0 updateend", "buffer 0 updateend", "buffer 1 updateend",
        "buffer 0 error", "buffer 0 abort", "buffer 4294967295 update", "element durationchange", "element loadedmetadata",
        "element loadeddata", "element waiting", "element timeupdate", "element timeupdate", "element canplay",
        "element playing", "element canplaythrough", "element seeking", "element seeked", "element play", "element pause",
        "element ended", "element error",
    };
    text_format(text, "on = '%s'\n", ONE_OF(chance, events));
}

static bool is_call(const struct text *line)
{
    static struct text text;
    struct step step;
    text.length = 0;
    return read_step(line->at, line->length, &step, &text) && step.kind->is_call;
}

/* Whether TOML takes the bytes in quotes as they are. */
static bool is_plain(const struct text *line)
{
    for (size_t i = 0; i < line->length; i++)
        if (line->at[i] < 0x20 || line->at[i] > 0x7e)
            return false;
    return true;
}

/* Puts the calls of a rule; false where one is no call line. */
static bool put_calls(struct text *text, struct chance *chance, const struct scene *scene)
{
    static struct text line;
    bool ok = true;
    text_word(text, "calls = [");
    for (size_t i = 1 + below(chance, 4); i > 0; i--) {
        line.length = 0;
        if (one_in(chance, 60))
            make_bad_line(&line, chance, scene);
        else
            make_call(&line, chance, scene);
        if (!is_plain(&line) || (!is_call(&line) && !one_in(chance, 30)))
            text_word(text, "'state',");
        else
            put_quoted(text, line.at, line.length);
        ok = ok && (!is_plain(&line) || is_call(&line) || text->at[text->length - 2] == '\'');
    }
    text_word(text, "]\n");
    return ok;
}

/* Rules of up to sixteen listeners; which of them is the first with a fault, or `count`. */
static size_t put_rules(struct text *text, struct chance *chance, const struct scene *scene, size_t count)
{
    size_t bad = count;
    for (size_t i = 0; i < count; i++) {
        bool is_endless = one_in(chance, 20);
        text_format(text, "[[rules]]\nlistener = %zu\n", below(chance, 16));
        put_event(text, chance);
        if (!one_in(chance, 4))
            text_format(text, "times = %zu\n", one_in(chance, 8) ? 1000000 : 1 + below(chance, 4));
        if (is_endless)
            text_word(text, "repeat = true\n");
        if (!put_calls(text, chance, scene) && bad == count)
            bad = i;
    }
    return bad;
}

void check_rules(const struct plan *plan, const struct record *record, struct chance *chance, struct played *played)
{
    char fault[40];
    size_t count = 1 + below(chance, one_in(chance, 4) ? 20 : 6);
    put_script(plan, record, &played->script);
    text_format(&played->script, "drain = %zu\n", one_in(chance, 3) ? 1 + below(chance, 20) : 1500);
    size_t bad = put_rules(&played->script, chance, &plan->scene, count);
    play_again(plan, played);
    CHECK((played->status == 2) == (bad < count));
    CHECK(read_played(played->printed.at, played->printed.length, played->status));
    if (played->status == 2) {
        size_t length = (size_t)snprintf(fault, sizeof fault, "error: script rule %zu\n", bad);
        CHECK(played->printed.length == length && memcmp(played->printed.at, fault, length) == 0);
    }
}

void check_damaged_script(const struct plan *plan, struct chance *chance, struct played *played)
{
    static const char *const pieces[] = {"'", "\"", "]", "[", "=", "\n", "[[rules]]\n", "# ", "{", "}", "\"\"\"", "\\u0000", "\\x41",
                                         "1e3", "inf", "0x10", "\xff", "\xe2\x82", "drain = 1\n", "quota=0\n", "'file b9',", "'hex 0',"};
    struct text *script = &played->script;
    for (size_t i = 1 + below(chance, 3); i > 0 && script->length > 0; i--) {
        if (one_in(chance, 2)) {
            damage(script, 0, chance);
            continue;
        }
        const char *piece = ONE_OF(chance, pieces);
        size_t length = strlen(piece), place = below(chance, script->length);
        text_room(script, length);
        memmove(script->at + place + length, script->at + place, script->length - place);
        memcpy(script->at + place, piece, length);
        script->length += length;
    }
    play_again(plan, played);
    CHECK(read_played(played->printed.at, played->printed.length, played->status));
}

static int command(const struct plan *plan, const char *const *words, size_t count, struct played *played)
{
    played->status = run(plan, &played->script, words, count, &played->printed);
    return played->status;
}

void check_commands(const struct plan *plan, struct chance *chance, struct played *played)
{
    static struct text whole;
    static const char *const sizes[] = {"1", "7", "100", "4096", "2147483648"};
    static const char *const times[] = {"0", "1/10", "-1", "14112000000", "3/1"};
    const char *name = one_in(chance, 30) ? "b99" : plan->scene.given > 1 && one_in(chance, 2) ? "b1" : "b0";
    int status = command(plan, (const char *[]){"ranges", name}, 2, played);
    if (status == 8)
        return;
    CHECK((status == 0 || status == 9) && read_command(played->printed.at, played->printed.length, status, false));
    whole.length = 0;
    text_bytes(&whole, played->printed.at, played->printed.length);
    CHECK(command(plan, (const char *[]){"pieces", ONE_OF(chance, sizes), name}, 3, played) == status);
    CHECK(played->printed.length == whole.length && memcmp(played->printed.at, whole.at, whole.length) == 0);
    CHECK(command(plan, (const char *[]){"feed", ONE_OF(chance, times), name}, 3, played) == status);
    CHECK(read_command(played->printed.at, played->printed.length, status, true));
    status = command(plan, (const char *[]){"remux", name}, 2, played);
    CHECK(status == 0 || status == 9);
}
