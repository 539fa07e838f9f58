/* Refuses memory to a program that is run with this library loaded in front:
 *
 *     REFUSE=N LD_PRELOAD=refuse.so PROGRAM
 *
 * refuses the allocation of number N, counted from 1; REFUSE=N+ also refuses all that come after it. Where ALLOCATIONS
 * names a file, the count of allocations that were asked for is written there when the program ends. */
#include <errno.h>
#include <stdio.h>
#include <stdlib.h>
#include <string.h>

extern void *__libc_malloc(size_t size);
extern void *__libc_realloc(void *old, size_t size);

static unsigned long asked, refused;
static int refuses_all;

__attribute__((constructor)) static void begin(void) {
    const char *word = getenv("REFUSE");
    refused = word ? strtoul(word, NULL, 10) : 0;
    refuses_all = word && strchr(word, '+');
    asked = 0;
}

__attribute__((destructor)) static void end(void) {
    const char *name = getenv("ALLOCATIONS");
    unsigned long count = asked;
    FILE *file;
    refused = 0;
    if (name && (file = fopen(name, "w"))) {
        fprintf(file, "%lu\n", count);
        fclose(file);
    }
}

static int is_refused(void) {
    asked++;
    if (!refused || (refuses_all ? asked < refused : asked != refused))
        return 0;
    errno = ENOMEM;
    return 1;
}

void *malloc(size_t size) {
    return is_refused() ? NULL : __libc_malloc(size);
}

void *realloc(void *old, size_t size) {
    return is_refused() ? NULL : __libc_realloc(old, size);
}
