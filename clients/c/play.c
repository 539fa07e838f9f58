/* Plays a script in one call, and prints what the program prints:
 *
 *     play SCRIPT [FILE..]
 *
 * The files are those that the script names. All of them are read into memory before the call. A file that cannot be
 * read is told on standard error. */
#include <stdio.h>
#include <stdlib.h>
#include <string.h>

#include "mseplay.h"
#include "read.h"

const char program_name[] = "play";

static struct mseplay_byte_slice text(const char *word)
{
    struct mseplay_byte_slice bytes = {(const uint8_t *)word, strlen(word)};
    return bytes;
}

int main(int count, char **names)
{
    if (count < 2)
        stop("usage: play SCRIPT [FILE..]", "", 1);
    size_t file_count = (size_t)count - 1;
    struct mseplay_file *files = room_for(NULL, file_count * sizeof *files);
    for (size_t i = 0; i < file_count; i++) {
        files[i].name = text(names[i + 1]);
        files[i].bytes = contents(names[i + 1]);
    }
    struct mseplay_byte_slice words[] = {text("play"), files[0].name};
    size_t size = 1000, written;
    uint8_t *room = room_for(NULL, size);
    int status = mseplay_run(words, 2, files, file_count, room, size, &written);
    if (written > size) {
        size = written;
        room = room_for(room, size);
        status = mseplay_run(words, 2, files, file_count, room, size, &written);
    }
    size_t length = written < size ? written : size;
    if (fwrite(room, 1, length, stdout) != length || fflush(stdout) != 0)
        stop("cannot write", "", 4);
    free(room);
    for (size_t i = 0; i < file_count; i++)
        free_contents(files[i].bytes);
    free(files);
    return status;
}
