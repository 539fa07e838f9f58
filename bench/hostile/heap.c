/* clients/c/heap.c, with counts of what it has handed out, and with refusals. */
#include <malloc.h>

#include "hostile.h"

#define rattle_alloc plain_alloc
#define rattle_realloc plain_realloc
#define rattle_dealloc plain_dealloc
#include "../../clients/c/heap.c"
#undef rattle_alloc
#undef rattle_realloc
#undef rattle_dealloc

struct heap heap;

void heap_anew(void)
{
    heap.asked = heap.refused = 0;
    heap.refused_from = heap.refused_until = UINT64_MAX;
    heap.most = heap.bytes;
}

static bool is_refused(void)
{
    uint64_t number = heap.asked++;
    bool refused = number >= heap.refused_from && number < heap.refused_until;
    heap.refused += refused;
    return refused;
}

static void count(size_t before, size_t now)
{
    heap.bytes += now - before;
    if (heap.bytes > heap.most)
        heap.most = heap.bytes;
}

struct attempt rattle_alloc(size_t size, size_t alignment)
{
    struct attempt made = is_refused() ? attempt_of(NULL) : plain_alloc(size, alignment);
    if (made.ok) {
        heap.blocks++;
        count(0, malloc_usable_size(made.block));
    }
    return made;
}

struct attempt rattle_realloc(uint8_t *block, size_t kept, size_t size, size_t alignment)
{
    if (is_refused())
        return attempt_of(NULL);
    size_t before = malloc_usable_size(block);
    struct attempt made = plain_realloc(block, kept, size, alignment);
    if (made.ok)
        count(before, malloc_usable_size(made.block));
    return made;
}

void rattle_dealloc(uint8_t *block)
{
    heap.blocks--;
    count(malloc_usable_size(block), 0);
    plain_dealloc(block);
}
