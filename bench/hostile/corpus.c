/* Bytes of the repository's files, cut, put together and damaged. */
#include <stdio.h>
#include <stdlib.h>
#include <string.h>

#include "hostile.h"

enum { SMALL = 2000 };

static int by_length(const void *a, const void *b)
{
    const struct mseplay_byte_slice *left = a, *right = b;
    return (left->length > right->length) - (left->length < right->length);
}

static struct mseplay_byte_slice file_of(const char *path)
{
    FILE *file = fopen(path, "rb");
    struct text text = {0};
    size_t count = 0;
    CHECK(file != NULL);
    while ((count = fread(text_room(&text, 4096), 1, 4096, file)) > 0)
        text.length += count;
    fclose(file);
    return (struct mseplay_byte_slice){text.at, text.length};
}

void corpus_read(struct corpus *corpus, char **paths, size_t count)
{
    CHECK(count > 0);
    corpus->files = calloc(count, sizeof *corpus->files);
    CHECK(corpus->files != NULL);
    for (size_t i = 0; i < count; i++)
        corpus->files[i] = file_of(paths[i]);
    corpus->count = count;
    qsort(corpus->files, count, sizeof *corpus->files, by_length);
    while (corpus->small < count && corpus->files[corpus->small].length <= SMALL)
        corpus->small++;
    CHECK(corpus->small > 0);
}

static const uint32_t numbers[] = {0, 1, 2, 3, 7, 8, 9, 15, 16, 17, 0x7f, 0xff, 0x100, 1000, 1001, 0x7fffffff, 0x80000000,
                                   0xfffffff0, 0xffffffff, 0x1000001, 0x100001, 0x8000000};

/* Puts a number where the size or the count of a box may stand. */
static void damage_box(struct text *text, size_t from, struct chance *chance)
{
    static const char *const types[] = {"moof", "traf", "tfhd", "tfdt", "trun", "mdat", "moov", "trak", "mdia", "minf", "stbl",
                                        "stsd", "stts", "stsz", "mvhd", "tkhd", "mdhd", "hdlr", "mvex", "trex", "elst", "ftyp"};
    const char *type = ONE_OF(chance, types);
    for (size_t i = from + 4; i + 4 <= text->length; i++)
        if (memcmp(text->at + i, type, 4) == 0) {
            size_t place = one_in(chance, 2) ? i - 4 : i + 4 + 4 * below(chance, 6);
            uint32_t number = ONE_OF(chance, numbers);
            if (one_in(chance, 2) && place + 4 <= text->length)
                number = (uint32_t)(text->at[place + 3] + below(chance, 9) - 4);
            if (one_in(chance, 10000))
                number = one_in(chance, 20) ? 0x100000 : 0x10000;
            if (place + 4 <= text->length)
                put_number(text->at + place, number, 4);
            return;
        }
}

/* Moves, doubles or takes out some bytes. */
static void damage_row(struct text *text, size_t from, struct chance *chance)
{
    size_t length = text->length - from, place = from + below(chance, length), count = below(chance, text->length - place) + 1;
    if (one_in(chance, 2)) {
        memmove(text->at + place, text->at + place + count, text->length - place - count);
        text->length -= count;
        return;
    }
    count = count < 200 ? count : 200;
    text_room(text, count);
    memmove(text->at + place + count, text->at + place, text->length - place);
    text->length += count;
}

void damage(struct text *text, size_t from, struct chance *chance)
{
    if (text->length == from)
        return;
    size_t place = from + below(chance, text->length - from);
    switch (below(chance, 8)) {
    case 0:
        text->at[place] ^= (uint8_t)(1u << below(chance, 8));
        return;
    case 1:
        text->at[place] = (uint8_t)draw(chance);
        return;
    case 2:
        if (place + 4 <= text->length)
            put_number(text->at + place, ONE_OF(chance, numbers), 4);
        return;
    case 3:
        damage_row(text, from, chance);
        return;
    case 4:
        text->length = place;
        return;
    default:
        damage_box(text, from, chance);
    }
}

static void add_text(struct text *text, struct chance *chance)
{
    static const char *const words[] = {"<html>", "\xef\xbb\xbf", "#EXTM3U\n", "0000", "\n", "WEBVTT\n\n", "moof", "RIFF", "\x1a\x45\xdf\xa3",
                                        "ID3", "\xff\xf1", "\0\0\0\1", "G@", "OggS", "free", "\0\0\0\x10"};
    for (size_t i = below(chance, 12); i > 0; i--)
        text_word(text, ONE_OF(chance, words));
    for (size_t i = below(chance, 30); i > 0; i--)
        text_format(text, "%c", (int)below(chance, 256));
}

static void add_file(struct text *text, struct chance *chance, const struct corpus *corpus)
{
    size_t count = one_in(chance, 200) ? corpus->count : corpus->small;
    const struct mseplay_byte_slice *file = &corpus->files[below(chance, count)];
    size_t first = one_in(chance, 6) ? below(chance, file->length + 1) : 0;
    size_t length = one_in(chance, 6) ? below(chance, file->length - first + 1) : file->length - first;
    text_bytes(text, file->data + first, length);
}

void hostile_bytes(struct text *text, struct chance *chance, const struct corpus *corpus, enum bytes_kind kind)
{
    size_t from = text->length;
    if (kind == BYTES_OTHER)
        add_text(text, chance);
    else if (kind == BYTES_ADTS)
        make_adts(text, chance);
    else if (one_in(chance, 2))
        make_mp4(text, chance, corpus);
    else
        add_file(text, chance, corpus);
    if (one_in(chance, 6))
        add_file(text, chance, corpus);
    if (one_in(chance, 2))
        for (size_t i = 1 + below(chance, 3); i > 0; i--)
            damage(text, from, chance);
}
