/* Makes step lines. */
#include <string.h>

#include "hostile.h"

static const char *const types[] = {
    "video/mp4", "audio/mp4", "audio/aac", "video/mp4; codecs=\"avc1.42E01E\"", "audio/mp4;codecs=mp4a.40.2",
    "VIDEO/MP4 ;  codecs=\"avc1,mp4a\"", "video/webm", "video/mp4;codecs=", "video/mp4; codecs=\"vp8\"",
    "audio/aac;codecs=\"mp4a.40.2\"", "video/mp4; codecs=\" hev1 , Opus,flac\"", "text/html", "video/mp4 ", " video/mp4", "x",
    "video/mp4; codecs=\"a: done\"", "add: refused TypeError",
};

static void make_buffer(struct text *text, struct chance *chance, const struct scene *scene)
{
    static const char *const others[] = {"1", "2", "3", "15", "16", "255", "4294967295", "65536"};
    if (one_in(chance, 16) || scene->buffers == 0)
        text_word(text, ONE_OF(chance, others));
    else
        text_format(text, "%zu", one_in(chance, 3) ? below(chance, scene->buffers) : 0);
}

/* A number near a length, also behind it. */
static uint64_t near_length(struct chance *chance, size_t length)
{
    static const uint64_t far[] = {UINT64_C(1) << 31, UINT64_C(1) << 32, (UINT64_C(1) << 63) - 1, UINT64_C(1) << 62, 100000};
    if (one_in(chance, 24))
        return ONE_OF(chance, far);
    if (one_in(chance, 8))
        return length + below(chance, 3);
    return below(chance, length + 1);
}

static void make_part(struct text *text, struct chance *chance, size_t length)
{
    uint64_t first = near_length(chance, length);
    size_t left = first < length ? length - (size_t)first : 0;
    uint64_t count = one_in(chance, 4) ? left : near_length(chance, left);
    text_format(text, " %llu %llu", (unsigned long long)first, (unsigned long long)count);
}

static void make_blob(struct text *text, struct chance *chance, const struct scene *scene)
{
    static const char *const others[] = {"40", "999", "4294967295", "7"};
    if (one_in(chance, 24) || scene->given == 0) {
        text_word(text, ONE_OF(chance, others));
        if (one_in(chance, 2))
            make_part(text, chance, 100);
        return;
    }
    size_t blob = below(chance, scene->given);
    text_format(text, "%zu", blob);
    if (!one_in(chance, 3))
        make_part(text, chance, scene->lengths[blob]);
}

static void make_digits(struct text *text, struct chance *chance, size_t count)
{
    for (size_t i = 0; i < count; i++)
        text_format(text, "%zu", i == 0 && count > 1 ? 1 + below(chance, 9) : below(chance, 10));
}

static void make_time(struct text *text, struct chance *chance)
{
    static const char *const scales[] = {"1", "2", "10", "30", "1000", "44100", "48000", "90000", "4294967295", "7"};
    static const char *const edges[] = {
        "nan", "inf", "0", "1", "-1", "141120000000", "14112000000", "1/30", "3/1", "inf", "nan",
        "9198371702336358468910/1", "-9198371702336358468910/1", "9198371702336358468911/1", "-1/4294967295",
        "999999999999999999999999",
        "-999999999999999999999999", "999999999999999999999999/4294967295", "0/1", "1001/30000", "9223372036854775807",
        "18446744073709551616", "1298074214633706907132624082305024", "170141183460469231731687303715884105727",
    };
    switch (below(chance, 8)) {
    case 0:
        text_word(text, one_in(chance, 4) ? edges[11 + below(chance, 4)] : ONE_OF(chance, edges));
        return;
    case 1:
        text_word(text, one_in(chance, 2) ? "-" : "");
        make_digits(text, chance, 1 + below(chance, 24));
        break;
    case 2:
        text_word(text, one_in(chance, 8) ? "-" : "");
        make_digits(text, chance, 9 + below(chance, 4));
        return;
    default:
        text_word(text, one_in(chance, 12) ? "-" : "");
        text_format(text, "%zu/", 1 + below(chance, 40));
        text_word(text, one_in(chance, 4) ? "1" : one_in(chance, 2) ? "100" : "10");
        return;
    }
    if (one_in(chance, 2)) {
        text_word(text, "/");
        text_word(text, ONE_OF(chance, scales));
    }
}

void make_type(struct text *text, struct chance *chance)
{
    text_word(text, one_in(chance, 3) ? ONE_OF(chance, types) : types[below(chance, 3)]);
}

/* A line of a kind: its name, and letters as in steps.c. */
static void make_words(struct text *text, struct chance *chance, const struct scene *scene, const char *name, const char *words)
{
    text_word(text, name);
    for (; *words != '\0'; words++) {
        text_word(text, " ");
        switch (*words) {
        case 'k':
            make_buffer(text, chance, scene);
            break;
        case 'b':
            make_blob(text, chance, scene);
            break;
        case 't':
            make_time(text, chance);
            break;
        case 'y':
            make_type(text, chance);
            break;
        case 'm':
            text_word(text, one_in(chance, 2) ? "segments" : "sequence");
            break;
        default:
            text_word(text, one_in(chance, 2) ? "network" : "decode");
        }
    }
}

void make_call(struct text *text, struct chance *chance, const struct scene *scene)
{
    static const struct {
        const char *name, *words;
    } lines[] = {
        {"append", "kb"}, {"append", "kb"}, {"append", "kb"}, {"append", "kb"}, {"append", "kb"}, {"append", "kb"},
        {"remove", "ktt"}, {"remove", "ktt"}, {"offset", "kt"}, {"offset", "kt"}, {"windowstart", "kt"},
        {"windowend", "kt"}, {"mode", "km"}, {"abort", "k"}, {"abort", "k"}, {"changetype", "ky"}, {"changetype", "k"},
        {"duration", "t"}, {"duration", "t"}, {"endofstream", ""}, {"endofstream", ""}, {"endofstream", "e"},
        {"live", "tt"}, {"clearlive", ""}, {"seek", "t"}, {"seek", "t"}, {"play", ""}, {"pause", ""},
        {"advance", "t"}, {"advance", "t"}, {"buffered", "k"}, {"elementbuffered", ""}, {"seekable", ""}, {"state", ""},
        {"add", "y"}, {"add", "y"}, {"add", ""}, {"removebuffer", "k"}, {"attach", ""},
    };
    size_t i = below(chance, COUNT_OF(lines));
    make_words(text, chance, scene, lines[i].name, lines[i].words);
}

/* Changes one place of a line. */
static void break_line(struct text *text, size_t from, struct chance *chance)
{
    static const char bytes[] = "  0019-/+\n\r\t\x7f\x80\xff\"'\\ainf.:";
    size_t length = text->length - from, place = from + below(chance, length + 1);
    uint8_t byte = one_in(chance, 6) ? 0 : (uint8_t)bytes[below(chance, sizeof bytes - 1)];
    if (one_in(chance, 2) || place == text->length) {
        text_room(text, 1);
        memmove(text->at + place + 1, text->at + place, text->length - place);
        text->at[place] = byte;
        text->length++;
    } else if (one_in(chance, 2)) {
        text->at[place] = byte;
    } else {
        memmove(text->at + place, text->at + place + 1, text->length - place - 1);
        text->length--;
    }
}

void make_bad_line(struct text *text, struct chance *chance, const struct scene *scene)
{
    static const char *const lines[] = {
        "", " ", "drain ", "fire 0", "work", "work -1", "work 4294967296", "work 00", "element 1", "atach", "append", "append 0",
        "append 0 0 1", "append 0 0 1 2 3", "append 0 0 9223372036854775808 0", "add ", "changetype 0 ", "mode 0 sequences",
        "endofstream ", "endofstream decode ", "seek", "seek 1/0", "seek -0", "seek 1.5", "seek +1", "seek 1/4294967296",
        "seek 1234567890123456789012345", "seek NaN", "seek -inf", "seek 1e3", "live 1", "live 1 2 3", "remove 0 1",
        "PLAY", "play\n", "state\xc3\xa9", "\xff\xfe", "\xef\xbb\xbfstate", "drain\ndrain", "offset 0  1",
    };
    size_t from = text->length;
    if (one_in(chance, 3)) {
        text_word(text, ONE_OF(chance, lines));
        return;
    }
    make_call(text, chance, scene);
    for (size_t i = 1 + below(chance, 2); i > 0; i--)
        break_line(text, from, chance);
}
