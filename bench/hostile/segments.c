/* Makes fragments and ADTS frames. */
#include <string.h>

#include "hostile.h"

void put_number(uint8_t *at, uint64_t number, size_t bytes)
{
    for (; bytes > 0; number >>= 8)
        at[--bytes] = (uint8_t)number;
}

static void add_number(struct text *text, uint64_t number, size_t bytes)
{
    put_number(text_room(text, bytes), number, bytes);
    text->length += bytes;
}

/* Begins a box; what `end_box` takes. */
static size_t begin_box(struct text *text, const char *type)
{
    add_number(text, 0, 4);
    text_word(text, type);
    return text->length - 8;
}

static void end_box(struct text *text, size_t begin)
{
    put_number(text->at + begin, text->length - begin, 4);
}

struct run {
    uint32_t flags;
    size_t count, bytes;
};

static void add_samples(struct text *text, struct chance *chance, struct run *run, uint32_t size)
{
    static const uint32_t durations[] = {3000, 3000, 3000, 1, 0, 9000, 1024, 90000, UINT32_MAX};
    uint32_t duration = one_in(chance, 4) ? ONE_OF(chance, durations) : 3000;
    for (size_t i = 0; i < run->count; i++) {
        if (run->flags & 0x100)
            add_number(text, one_in(chance, 8) ? ONE_OF(chance, durations) : duration, 4);
        uint32_t own = run->flags & 0x200 ? (uint32_t)below(chance, 9) : size;
        if (run->flags & 0x200)
            add_number(text, own, 4);
        run->bytes += own;
        if (run->flags & 0x400)
            add_number(text, one_in(chance, 3) ? 0x2000000 : 0x1010000, 4);
        if (run->flags & 0x800)
            add_number(text, one_in(chance, 8) ? draw(chance) : 3000 * below(chance, 4), 4);
    }
}

/* A `traf` with one run; where its data offset stands, or 0. */
static size_t add_traf(struct text *text, struct chance *chance, struct run *run)
{
    size_t traf = begin_box(text, "traf"), tfhd = begin_box(text, "tfhd"), offset = 0;
    uint32_t size = (uint32_t)below(chance, 6);
    add_number(text, 0x20000 | 0x8 | 0x10 | 0x20, 4);
    add_number(text, one_in(chance, 12) ? below(chance, 4) : one_in(chance, 6) ? 2 : 1, 4);
    add_number(text, one_in(chance, 4) ? below(chance, 100000) : 3000, 4);
    add_number(text, size, 4);
    add_number(text, one_in(chance, 3) ? 0x1010000 : 0x2000000, 4);
    end_box(text, tfhd);
    size_t tfdt = begin_box(text, "tfdt");
    bool is_long = one_in(chance, 2);
    add_number(text, (uint64_t)is_long << 24, 4);
    add_number(text, one_in(chance, 16) ? draw(chance) : 3000 * below(chance, 100), is_long ? 8 : 4);
    end_box(text, tfdt);
    size_t trun = begin_box(text, "trun");
    run->flags = (uint32_t)(draw(chance) & 0xf04) | 1;
    run->flags = run->flags & 0x400 ? run->flags & ~4u : run->flags;
    add_number(text, run->flags | (uint32_t)one_in(chance, 2) << 24, 4);
    run->count = below(chance, one_in(chance, 40) ? 300 : 8);
    add_number(text, run->count, 4);
    offset = text->length;
    add_number(text, 0, 4);
    if (run->flags & 4)
        add_number(text, 0x2000000, 4);
    add_samples(text, chance, run, size);
    end_box(text, trun);
    end_box(text, traf);
    return offset;
}

static void add_segment(struct text *text, struct chance *chance)
{
    if (one_in(chance, 4)) {
        size_t styp = begin_box(text, one_in(chance, 8) ? "ftyp" : "styp");
        text_bytes(text, "iso6\0\0\0\0iso6", 12);
        end_box(text, styp);
    }
    size_t moof = begin_box(text, "moof"), offsets[3], trafs = one_in(chance, 5) ? 1 + below(chance, 3) : 1;
    struct run runs[3] = {{0}};
    size_t mfhd = begin_box(text, "mfhd");
    add_number(text, below(chance, 100), 8);
    end_box(text, mfhd);
    for (size_t i = 0; i < trafs; i++)
        offsets[i] = add_traf(text, chance, &runs[i]);
    end_box(text, moof);
    size_t payload = text->length + 8 - moof, mdat = begin_box(text, "mdat");
    for (size_t i = 0; i < trafs; i++) {
        put_number(text->at + offsets[i], payload + (one_in(chance, 20) ? below(chance, 40) : 0), 4);
        memset(text_room(text, runs[i].bytes), (int)('A' + i), runs[i].bytes);
        text->length += runs[i].bytes;
        payload += runs[i].bytes;
    }
    end_box(text, mdat);
}

/* The front of a file, and fragments behind it. */
void make_mp4(struct text *text, struct chance *chance, const struct corpus *corpus)
{
    const struct mseplay_byte_slice *file = &corpus->files[below(chance, corpus->small)];
    size_t length = 0;
    for (size_t i = 0; i + 4 <= file->length; i++)
        if (memcmp(file->data + i, "moof", 4) == 0) {
            length = i - 4;
            break;
        }
    if (!one_in(chance, 10))
        text_bytes(text, file->data, length);
    for (size_t i = 1 + below(chance, 3); i > 0; i--)
        add_segment(text, chance);
}

static void add_tag(struct text *text, struct chance *chance)
{
    size_t length = below(chance, 20);
    text_bytes(text, "ID3\4\0\0\0\0\0", 9);
    add_number(text, length, 1);
    memset(text_room(text, length), 0, length);
    text->length += length;
}

void make_adts(struct text *text, struct chance *chance)
{
    uint64_t rate = below(chance, one_in(chance, 12) ? 16 : 13), has_check = one_in(chance, 4);
    for (size_t i = 1 + below(chance, one_in(chance, 20) ? 100 : 6); i > 0; i--) {
        if (one_in(chance, 10))
            add_tag(text, chance);
        uint64_t length = (has_check ? 9 : 7) + below(chance, 8);
        uint64_t named = one_in(chance, 30) ? below(chance, 8192) : length;
        uint64_t header = (UINT64_C(0xfff0) | (one_in(chance, 2) << 3) | !has_check) << 40;
        header |= UINT64_C(1) << 38 | rate << 34 | UINT64_C(2) << 30 | named << 13 | 0x7ff << 2 | below(chance, 4);
        add_number(text, header, 7);
        memset(text_room(text, 16), 0x21, 16);
        text->length += length - 7;
    }
}
