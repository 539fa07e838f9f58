#include <stdio.h>
#include <stdlib.h>

#include "read.h"

void stop(const char *why, const char *name, int status)
{
    fprintf(stderr, "%s: %s%s\n", program_name, why, name);
    exit(status);
}

void *room_for(void *old, size_t size)
{
    void *room = realloc(old, size != 0 ? size : 1);
    if (room == NULL)
        stop("no memory", "", 5);
    return room;
}

struct mseplay_byte_slice contents(const char *name)
{
    size_t length = 0, size = 4096, count;
    uint8_t *bytes = room_for(NULL, size);
    FILE *file = fopen(name, "rb");
    if (file == NULL)
        stop("no file ", name, 8);
    while ((count = fread(bytes + length, 1, size - length, file)) != 0) {
        length += count;
        if (length == size)
            bytes = room_for(bytes, size *= 2);
    }
    if (ferror(file))
        stop("cannot read ", name, 3);
    fclose(file);
    struct mseplay_byte_slice all = {bytes, length};
    return all;
}

void free_contents(struct mseplay_byte_slice bytes)
{
    free((void *)bytes.data);
}
