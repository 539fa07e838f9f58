#include <stdarg.h>
#include <stdio.h>
#include <stdlib.h>
#include <string.h>

#include "hostile.h"

uint8_t *text_room(struct text *text, size_t count)
{
    if (text->size - text->length < count || text->at == NULL) {
        text->size = 2 * text->size + count + 64;
        text->at = realloc(text->at, text->size);
        CHECK(text->at != NULL);
    }
    return text->at + text->length;
}

void text_bytes(struct text *text, const void *bytes, size_t length)
{
    memmove(text_room(text, length), bytes, length);
    text->length += length;
}

void text_word(struct text *text, const char *word)
{
    text_bytes(text, word, strlen(word));
}

void text_ticks(struct text *text, ticks value)
{
    char digits[48];
    size_t at = sizeof digits;
    unsigned __int128 left = value < 0 ? -(unsigned __int128)value : (unsigned __int128)value;
    do
        digits[--at] = (char)('0' + (int)(left % 10));
    while ((left /= 10) != 0);
    if (value < 0)
        digits[--at] = '-';
    text_bytes(text, digits + at, sizeof digits - at);
}

void text_format(struct text *text, const char *format, ...)
{
    va_list words;
    va_start(words, format);
    char *room = (char *)text_room(text, 400);
    int length = vsnprintf(room, 400, format, words);
    va_end(words);
    CHECK(length >= 0 && length < 400);
    text->length += (size_t)length;
}
