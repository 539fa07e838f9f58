/* Reads step lines, by docs/SCRIPTS.md alone. */
#include <string.h>

#include "hostile.h"

#define SECOND ((ticks)141120000000)
#define FARTHEST ((ticks)1 << 110)
#define STATE (1u << MSEPLAY_INVALID_STATE_ERROR)
#define SUPPORT (1u << MSEPLAY_NOT_SUPPORTED_ERROR)
#define QUOTA (1u << MSEPLAY_QUOTA_EXCEEDED_ERROR)
#define TYPE (1u << MSEPLAY_TYPE_ERROR)
#define FOUND (1u << MSEPLAY_NOT_FOUND_ERROR)

/* The words of a line: k a buffer, b a blob, p a part or none, t a time, y a type or none, m a mode, e an error or
 * none. */
static const struct step_kind kinds[] = {
    {"attach", "", true, {0}, ANSWER_DONE, STATE},
    {"add", "y", true, {0}, ANSWER_DONE, TYPE | SUPPORT | QUOTA | STATE},
    {"removebuffer", "k", true, {0}, ANSWER_DONE, FOUND},
    {"duration", "t", true, {0}, ANSWER_DONE, TYPE | STATE},
    {"endofstream", "e", true, {0}, ANSWER_DONE, STATE},
    {"live", "tt", true, {true, true}, ANSWER_DONE, STATE | TYPE},
    {"clearlive", "", true, {0}, ANSWER_DONE, STATE},
    {"mode", "km", true, {0}, ANSWER_DONE, STATE | TYPE},
    {"offset", "kt", true, {true}, ANSWER_DONE, STATE},
    {"windowstart", "kt", true, {true}, ANSWER_DONE, STATE | TYPE},
    {"windowend", "kt", true, {0}, ANSWER_DONE, STATE | TYPE},
    {"append", "kbp", true, {0}, ANSWER_DONE, STATE | QUOTA},
    {"abort", "k", true, {0}, ANSWER_DONE, STATE},
    {"remove", "ktt", true, {true}, ANSWER_DONE, STATE | TYPE},
    {"changetype", "ky", true, {0}, ANSWER_DONE, TYPE | STATE | SUPPORT},
    {"buffered", "k", true, {0}, ANSWER_RANGES, STATE},
    {"state", "", true, {0}, ANSWER_SOURCE, 0},
    {"seek", "t", true, {true}, ANSWER_DONE, 0},
    {"play", "", true, {0}, ANSWER_DONE, SUPPORT},
    {"pause", "", true, {0}, ANSWER_DONE, 0},
    {"advance", "t", true, {true}, ANSWER_DONE, TYPE},
    {"elementbuffered", "", true, {0}, ANSWER_RANGES, 0},
    {"seekable", "", true, {0}, ANSWER_RANGE, 0},
    {"fire", "", false, {0}, ANSWER_DONE, 0},
    {"work", "k", false, {0}, ANSWER_DONE, 0},
    {"element", "", false, {0}, ANSWER_DONE, 0},
    {"drain", "", false, {0}, ANSWER_DONE, 0},
};

struct reader {
    const uint8_t *at, *end;
};

/* The next word, whose first byte is behind a space. */
static bool next_word(struct reader *line, struct reader *word)
{
    if (line->at == line->end || *line->at != ' ')
        return false;
    word->at = ++line->at;
    while (line->at < line->end && *line->at != ' ')
        line->at++;
    word->end = line->at;
    return word->at < word->end;
}

static bool is_word(struct reader word, const char *text)
{
    size_t length = (size_t)(word.end - word.at);
    return length == strlen(text) && memcmp(word.at, text, length) == 0;
}

/* Digits without a leading zero, at most so many, to the word's end. */
static bool read_digits(struct reader word, size_t most, ticks *number)
{
    size_t length = (size_t)(word.end - word.at);
    if (length == 0 || length > most || (*word.at == '0' && length > 1))
        return false;
    *number = 0;
    for (; word.at < word.end; word.at++) {
        if (*word.at < '0' || *word.at > '9')
            return false;
        *number = *number * 10 + (*word.at - '0');
    }
    return true;
}

static bool next_number(struct reader *line, unsigned bits, uint64_t *number)
{
    struct reader word;
    ticks read;
    if (!next_word(line, &word) || !read_digits(word, 20, &read) || read >> bits != 0)
        return false;
    *number = (uint64_t)read;
    return true;
}

static ticks floored(ticks number, ticks scale)
{
    ticks whole = number / scale;
    return whole - (number % scale < 0);
}

static bool read_scaled(struct reader word, size_t digits, ticks *value)
{
    bool negative = word.at < word.end && *word.at == '-';
    struct reader number = {word.at + negative, word.at + negative};
    while (number.end < word.end && *number.end != '/')
        number.end++;
    if (!read_digits(number, digits, value) || (negative && *value == 0))
        return false;
    if (negative)
        *value = -*value;
    if (number.end == word.end)
        return true;
    ticks scale;
    struct reader below = {number.end + 1, word.end};
    if (!read_digits(below, 10, &scale) || scale == 0 || scale >> 32 != 0)
        return false;
    *value = floored(*value * SECOND, scale);
    return *value <= FARTHEST && *value >= -FARTHEST;
}

static bool next_time(struct reader *line, size_t digits, struct told_time *time)
{
    struct reader word;
    if (!next_word(line, &word))
        return false;
    time->ticks = 0;
    time->kind = is_word(word, "nan") ? MSEPLAY_NAN : is_word(word, "inf") ? MSEPLAY_INFINITE : MSEPLAY_TICKS;
    return time->kind != MSEPLAY_TICKS || read_scaled(word, digits, &time->ticks);
}

static void put_time(struct text *text, struct told_time time)
{
    if (time.kind == MSEPLAY_TICKS)
        text_ticks(text, time.ticks);
    else
        text_word(text, time.kind == MSEPLAY_NAN ? "nan" : "inf");
}

static bool next_part(struct reader *line, struct step *step, struct text *text)
{
    if (line->at == line->end)
        return true;
    step->has_part = true;
    if (!next_number(line, 63, &step->first) || !next_number(line, 63, &step->length))
        return false;
    text_format(text, " %llu %llu", (unsigned long long)step->first, (unsigned long long)step->length);
    return true;
}

/* A type is all that is left; none is the empty type. */
static bool next_type(struct reader *line, struct text *text)
{
    size_t length = (size_t)(line->end - line->at);
    if (length == 1)
        return false;
    text_bytes(text, line->at, length);
    line->at = line->end;
    return true;
}

static bool next_choice(struct reader *line, const char *first, const char *second, struct text *text)
{
    struct reader word;
    if (!next_word(line, &word))
        return false;
    text_word(text, " ");
    text_bytes(text, word.at, (size_t)(word.end - word.at));
    return is_word(word, first) || is_word(word, second);
}

static bool next_argument(char word, struct reader *line, struct step *step, struct text *text)
{
    switch (word) {
    case 'k':
        step->names_buffer = true;
        if (!next_number(line, 32, &step->buffer))
            return false;
        text_format(text, " %llu", (unsigned long long)step->buffer);
        return true;
    case 'b':
        step->names_blob = true;
        if (!next_number(line, 32, &step->blob))
            return false;
        text_format(text, " %llu", (unsigned long long)step->blob);
        return true;
    case 't':
        if (!next_time(line, step->digits, &step->times[step->time_count]))
            return false;
        text_word(text, " ");
        put_time(text, step->times[step->time_count++]);
        return true;
    case 'p':
        return next_part(line, step, text);
    case 'y':
        return next_type(line, text);
    case 'm':
        return next_choice(line, "segments", "sequence", text);
    default:
        return line->at == line->end || next_choice(line, "network", "decode", text);
    }
}

static const struct step_kind *kind_of(struct reader name)
{
    for (size_t i = 0; i < COUNT_OF(kinds); i++)
        if (is_word(name, kinds[i].name))
            return &kinds[i];
    return NULL;
}

static bool read_line(const uint8_t *line, size_t length, size_t digits, struct step *step, struct text *text)
{
    struct reader rest = {line, line + length}, name = {line, line};
    for (const uint8_t *at = line; at < rest.end; at++)
        if (*at < 0x20 || *at > 0x7e)
            return false;
    while (rest.at < rest.end && *rest.at != ' ')
        rest.at++;
    name.end = rest.at;
    memset(step, 0, sizeof *step);
    step->digits = digits;
    step->kind = kind_of(name);
    if (step->kind == NULL)
        return false;
    text_word(text, step->kind->name);
    for (const char *word = step->kind->words; *word != '\0'; word++)
        if (!next_argument(*word, &rest, step, text))
            return false;
    return rest.at == rest.end;
}

bool read_step(const uint8_t *line, size_t length, struct step *step, struct text *text)
{
    return read_line(line, length, 24, step, text);
}

bool read_printed_step(const uint8_t *line, size_t length, struct step *step, struct text *text)
{
    return read_line(line, length, 36, step, text);
}
