/* heap.c, with a count of what it has handed out, and with refusals. */
#include <malloc.h>
#include <stdatomic.h>

#define rattle_alloc plain_alloc
#define rattle_realloc plain_realloc
#define rattle_dealloc plain_dealloc
#include "../c/heap.c"
#undef rattle_alloc
#undef rattle_realloc
#undef rattle_dealloc

static _Atomic size_t blocks, bytes, asked, refused_from = SIZE_MAX;

/* How many blocks are handed out and not given back, and how many bytes they have. */
size_t heap_blocks(void)
{
    return blocks;
}

size_t heap_bytes(void)
{
    return bytes;
}

/* From now on so many allocations succeed, and all behind them are refused. */
void heap_refuse_from(size_t count)
{
    asked = 0;
    refused_from = count;
}

/* Whether one was refused. */
bool heap_has_refused(void)
{
    return asked > refused_from;
}

static bool is_refused(void)
{
    return asked++ >= refused_from;
}

struct attempt rattle_alloc(size_t size, size_t alignment)
{
    struct attempt made = is_refused() ? attempt_of(NULL) : plain_alloc(size, alignment);
    if (made.ok) {
        blocks++;
        bytes += malloc_usable_size(made.block);
    }
    return made;
}

struct attempt rattle_realloc(uint8_t *block, size_t kept, size_t size, size_t alignment)
{
    if (is_refused())
        return attempt_of(NULL);
    size_t before = malloc_usable_size(block);
    struct attempt made = plain_realloc(block, kept, size, alignment);
    if (made.ok)
        bytes += malloc_usable_size(made.block) - before;
    return made;
}

void rattle_dealloc(uint8_t *block)
{
    blocks--;
    bytes -= malloc_usable_size(block);
    plain_dealloc(block);
}
