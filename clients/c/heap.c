/* The memory of the library: it asks for blocks by these three functions. */
#include <stdbool.h>
#include <stddef.h>
#include <stdint.h>
#include <stdlib.h>

struct attempt {
    bool ok;
    uint8_t *block;
};

/* What is handed out where there is no memory. */
static uint8_t no_block;

static struct attempt attempt_of(void *block)
{
    struct attempt attempt = {block != NULL, block != NULL ? block : &no_block};
    return attempt;
}

struct attempt rattle_alloc(size_t size, size_t alignment)
{
    return attempt_of(malloc(size != 0 ? size : alignment));
}

struct attempt rattle_realloc(uint8_t *block, size_t kept, size_t size, size_t alignment)
{
    (void)kept;
    return attempt_of(realloc(block, size != 0 ? size : alignment));
}

void rattle_dealloc(uint8_t *block)
{
    free(block);
}
