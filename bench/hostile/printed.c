/* Reads printed lines, by the grammar of docs/SCRIPTS.md alone. */
#include <string.h>

#include "hostile.h"

const char *const refusal_names[8] = {NULL, "InvalidStateError", "NotSupportedError", "QuotaExceededError", "TypeError",
                                      "NotFoundError", "NoSuchBuffer", "NoSuchBytes"};
const char *const fault_names[19] = {NULL, "SizeZero", "BoxSize", "TooLarge", "MoovPlace", "MoofPlace", "NoInit",
                                     "InSegment", "OutsideMdat", "Init", "Moof", "NoTracks", "Codec", "TracksDiffer",
                                     "TimeRange", "Sync", "Rate", "Length", "Counts"};

static const char *const init_names[] = {"Size", "Missing", "HasSamples", "NoMvex", "EditList", "ZeroTimescale",
                                         "DuplicateTrack", "TooManyTracks"};
static const char *const moof_names[] = {"Size", "NoTraf", "NoTfhd", "NoTfdt", "BaseOffset", "UnknownTrack",
                                         "TooManySamples", "Place"};
static const char *const targets[] = {"source", "sourcebuffers", "activesourcebuffers", "element"};
/* What is fired at each of these, and last at a buffer. */
static const char *const events[][15] = {
    {"sourceopen", "sourceended"},
    {"addsourcebuffer", "removesourcebuffer"},
    {"addsourcebuffer", "removesourcebuffer"},
    {"durationchange", "loadedmetadata", "loadeddata", "waiting", "timeupdate", "canplay", "playing", "canplaythrough",
     "seeking", "seeked", "play", "pause", "ended", "error"},
    {"updatestart", "update", "updateend", "error", "abort"},
};

struct lines {
    const uint8_t *at, *end;
};

const char *inner_name(int fault, int inner)
{
    if (inner < 1 || inner > 8 || (fault != 9 && fault != 10))
        return NULL;
    return (fault == 9 ? init_names : moof_names)[inner - 1];
}

/* Takes a text where it comes next. */
static bool take(struct lines *lines, const char *text)
{
    size_t length = strlen(text);
    if ((size_t)(lines->end - lines->at) < length || memcmp(lines->at, text, length) != 0)
        return false;
    lines->at += length;
    return true;
}

/* Takes a word of a list that a space or the line's end is behind; its place, or -1. */
static int take_word(struct lines *lines, const char *const *words, size_t count)
{
    const uint8_t *end = lines->at;
    while (end < lines->end && *end != ' ' && *end != '\n')
        end++;
    for (size_t i = 0; i < count && words[i] != NULL; i++)
        if ((size_t)(end - lines->at) == strlen(words[i]) && memcmp(lines->at, words[i], (size_t)(end - lines->at)) == 0) {
            lines->at = end;
            return (int)i;
        }
    return -1;
}

static bool take_bool(struct lines *lines)
{
    return take(lines, "true") || take(lines, "false");
}

/* A number of at most so many digits without a leading zero. */
static bool take_count(struct lines *lines, size_t most, ticks *number)
{
    const uint8_t *from = lines->at;
    *number = 0;
    while (lines->at < lines->end && *lines->at >= '0' && *lines->at <= '9' && (size_t)(lines->at - from) < most)
        *number = *number * 10 + (*lines->at++ - '0');
    return lines->at > from && (*from != '0' || lines->at == from + 1);
}

static bool take_number(struct lines *lines)
{
    ticks number;
    return take_count(lines, 20, &number) && number >> 64 == 0;
}

static bool take_ticks(struct lines *lines, ticks *value)
{
    bool negative = take(lines, "-");
    if (!take_count(lines, 36, value) || (negative && *value == 0))
        return false;
    if (negative)
        *value = -*value;
    return true;
}

static bool take_time(struct lines *lines)
{
    ticks value;
    return take(lines, "nan") || take(lines, "inf") || take_ticks(lines, &value);
}

/* Ranges that ascend, and neither overlap nor touch. */
static bool take_ranges(struct lines *lines)
{
    if (take(lines, "none"))
        return true;
    ticks start, end, last = 0;
    bool is_first = true;
    do {
        if (!take(lines, "[") || !take_ticks(lines, &start) || !take(lines, ",") || !take_ticks(lines, &end) || !take(lines, ")"))
            return false;
        if (end <= start || (!is_first && start <= last))
            return false;
        last = end;
        is_first = false;
    } while (take(lines, " "));
    return true;
}

static bool take_range(struct lines *lines)
{
    ticks start, end;
    return take(lines, "none") || (take(lines, "[") && take_ticks(lines, &start) && take(lines, ",") &&
                                   take_ticks(lines, &end) && take(lines, "]") && start <= end);
}

static bool take_source(struct lines *lines)
{
    ticks level, position, error;
    if (!take(lines, "source ") || !(take(lines, "closed") || take(lines, "open") || take(lines, "ended")))
        return false;
    return take(lines, " duration ") && take_time(lines) && take(lines, " level ") && take_count(lines, 1, &level) &&
           level <= 4 && take(lines, " position ") && take_ticks(lines, &position) && position >= 0 &&
           take(lines, " paused ") && take_bool(lines) && take(lines, " seeking ") && take_bool(lines) &&
           take(lines, " error ") && take_count(lines, 1, &error) && error != 1 && error <= 4;
}

static bool take_answer(struct lines *lines, enum answer_kind kind, int *refused)
{
    *refused = 0;
    if (take(lines, "refused ")) {
        *refused = take_word(lines, refusal_names + 1, 7) + 1;
        return *refused > 0;
    }
    switch (kind) {
    case ANSWER_RANGES:
        return take(lines, "ranges ") && take_ranges(lines);
    case ANSWER_RANGE:
        return take(lines, "range ") && take_range(lines);
    case ANSWER_SOURCE:
        return take_source(lines);
    default:
        return take(lines, "done");
    }
}

bool read_answer(const uint8_t **at, const uint8_t *end, enum answer_kind kind, int *refused)
{
    struct lines lines = {*at, end};
    bool ok = take_answer(&lines, kind, refused) && take(&lines, "\n");
    *at = lines.at;
    return ok;
}

static bool take_event(struct lines *lines)
{
    int target = take_word(lines, targets, COUNT_OF(targets));
    if (target < 0) {
        target = COUNT_OF(targets);
        if (!take(lines, "buffer ") || !take_number(lines))
            return false;
    }
    return take(lines, " ") && take_word(lines, events[target], COUNT_OF(events[target])) >= 0 && take(lines, "\n");
}

bool read_events(const uint8_t **at, const uint8_t *end, size_t most)
{
    struct lines lines = {*at, end};
    for (; most > 0 && take(&lines, "event "); most--)
        if (!take_event(&lines))
            return false;
    *at = lines.at;
    return true;
}

/* A code of four characters, of which none is a line feed. */
static bool take_code(struct lines *lines)
{
    for (int i = 0; i < 4; i++, lines->at++)
        if (lines->at == lines->end || *lines->at < 0x20 || *lines->at > 0x7e)
            return false;
    return true;
}

static bool take_fault(struct lines *lines, bool has_buffer)
{
    ticks number;
    if (!take_count(lines, 2, &number) || number < 1 || number > 18 || !take(lines, " ") || !take(lines, fault_names[(int)number]))
        return false;
    if (number == 9 || number == 10) {
        if (!take(lines, " "))
            return false;
        int inner = take_word(lines, number == 9 ? init_names : moof_names, 8);
        if (inner < 0 || (number == 9 && inner == 1 && (!take(lines, " ") || !take_code(lines))))
            return false;
    }
    if (has_buffer && (!take(lines, " buffer ") || !take_number(lines)))
        return false;
    return take(lines, " at ") && take_number(lines) && take(lines, "\n");
}

static bool take_track(struct lines *lines)
{
    return take_number(lines) && take(lines, " ") && take_number(lines) && (take(lines, " video ") || take(lines, " audio ")) &&
           take_code(lines) && take(lines, " frames ") && take_number(lines) && take(lines, " ranges ") &&
           take_ranges(lines) && take(lines, "\n");
}

static bool take_buffer(struct lines *lines)
{
    return take_number(lines) && take(lines, " phase ") &&
           (take(lines, "waiting") || take(lines, "init") || take(lines, "media")) && take(lines, " held ") &&
           take_number(lines) && take(lines, " used ") && take_number(lines) && take(lines, " buffered ") &&
           take_ranges(lines) && take(lines, "\n");
}

static bool take_block(struct lines *lines)
{
    if (!take(lines, "duration ") || !take_time(lines) || !take(lines, "\n"))
        return false;
    while (take(lines, "buffer ")) {
        if (!take_buffer(lines))
            return false;
        while (take(lines, "track "))
            if (!take_track(lines))
                return false;
    }
    return !take(lines, "fault ") || take_fault(lines, true);
}

bool read_block(const uint8_t **at, const uint8_t *end, bool has_state)
{
    struct lines lines = {*at, end};
    bool ok = !has_state || (take(&lines, "state ") && take_source(&lines) && take(&lines, "\n"));
    ok = ok && take_block(&lines);
    *at = lines.at;
    return ok;
}

/* A call line and what was answered. */
static bool take_call(struct lines *lines)
{
    const uint8_t *end = lines->at, *colon = NULL;
    while (end < lines->end && *end != '\n')
        end++;
    for (const uint8_t *at = lines->at; at + 1 < end; at++)
        if (at[0] == ':' && at[1] == ' ')
            colon = at;
    if (colon == NULL)
        return false;
    static struct text text;
    struct step step;
    int refused;
    text.length = 0;
    size_t length = (size_t)(colon - lines->at);
    if (!read_printed_step(lines->at, length, &step, &text) || !step.kind->is_call)
        return false;
    if (text.length != length || memcmp(text.at, lines->at, length) != 0)
        return false;
    lines->at = colon + 2;
    return take_answer(lines, step.kind->answer, &refused) && take(lines, "\n");
}

static bool take_happened(struct lines *lines)
{
    for (;;) {
        ticks number;
        if (take(lines, "call ")) {
            if (!take_call(lines))
                return false;
        } else if (take(lines, "event ")) {
            if (!take_event(lines))
                return false;
        } else if (take(lines, "listener ")) {
            if (!take_count(lines, 2, &number) || number > 15 || !take(lines, " ") || !take_call(lines))
                return false;
        } else {
            return true;
        }
    }
}

/* A name to the line's end. */
static bool take_name(struct lines *lines)
{
    while (lines->at < lines->end && *lines->at >= 0x20 && *lines->at <= 0x7e)
        lines->at++;
    return take(lines, "\n");
}

/* The line of a script that was not run. */
static bool take_script_fault(struct lines *lines)
{
    if (!take(lines, "error: script "))
        return false;
    if (take(lines, "not toml\n"))
        return true;
    if (take(lines, "blob ") || take(lines, "step ") || take(lines, "rule "))
        return take_number(lines) && take(lines, "\n");
    if (take(lines, "too many "))
        return take(lines, "blobs\n") || take(lines, "steps\n") || take(lines, "rules\n");
    return take(lines, "key ") && take_name(lines);
}

static bool take_end(struct lines *lines, int status)
{
    switch (status) {
    case 0:
        return read_block(&lines->at, lines->end, true);
    case 6:
        return take(lines, "error: listener ") && take_number(lines) &&
               take(lines, " answered more than 1000 calls for one event\n");
    case 7:
        return take(lines, "error: more than ") && take_number(lines) && take(lines, " listener calls in one drain\n");
    default:
        return false;
    }
}

bool read_played(const uint8_t *bytes, size_t length, int status)
{
    struct lines lines = {bytes, bytes + length};
    bool ok = status == 2   ? take_script_fault(&lines)
              : status == 8 ? take(&lines, "error: no file ") && take_name(&lines)
                            : take_happened(&lines) && take_end(&lines, status);
    return ok && lines.at == lines.end;
}

/* A line of `feed`. */
static bool take_fed(struct lines *lines)
{
    static const char *const ends[] = {"GroupEnd", "Wait", "Lost"};
    ticks t;
    if (take(lines, "end "))
        return take_word(lines, ends, 3) >= 0 && take(lines, "\n");
    if (take(lines, "frame "))
        return take_number(lines) && take(lines, " pts ") && take_ticks(lines, &t) && take(lines, " dts ") &&
               take_ticks(lines, &t) && take(lines, " dur ") && take_ticks(lines, &t) && take(lines, " bytes ") &&
               take_number(lines) && take(lines, " sync ") && take_bool(lines) && take(lines, "\n");
    return take(lines, "feed 0 ") && take_number(lines) && take(lines, " at ") && take_ticks(lines, &t) &&
           (take(lines, " none\n") || (take(lines, " wanted ") && take_number(lines) && take(lines, "\n")));
}

/* Lines of `feed` up to a fault or the end. */
static bool take_feeds(struct lines *lines, int status)
{
    while (lines->at < lines->end && !take(lines, "fault "))
        if (!take_fed(lines))
            return false;
    return lines->at == lines->end ? status == 0 : status == 9 && take_fault(lines, true);
}

bool read_command(const uint8_t *bytes, size_t length, int status, bool is_feed)
{
    struct lines lines = {bytes, bytes + length};
    if (is_feed)
        return take_feeds(&lines, status) && lines.at == lines.end;
    const uint8_t *last = bytes + length;
    while (last > bytes + 1 && last[-2] != '\n')
        last--;
    last -= last > bytes;
    bool has_fault = length > 6 && memcmp(last, "fault ", 6) == 0;
    return has_fault == (status == 9) && take_block(&lines) && lines.at == lines.end;
}
