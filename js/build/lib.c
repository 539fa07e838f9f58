/* What mseplay.wasm takes from outside of the proved crates: memory, over wasi-libc's malloc. It has no imports. */
#include <stddef.h>
#include <stdint.h>

extern void *malloc(size_t);
extern void *realloc(void *, size_t);
extern void free(void *);
extern uint8_t __heap_base;

/* No block may be longer than what a signed offset of 32 bits reaches. */
#define LONGEST 0x7fffffffu

struct attempt {
    uint64_t ok;
    uint64_t block;
};

static uint8_t no_block;

static struct attempt attempt_of(void *block) {
    struct attempt attempt = {block != 0, (uintptr_t)(block ? block : &no_block)};
    return attempt;
}

struct attempt rattle_alloc(uint64_t size, uint64_t align) {
    if (size > LONGEST || align > 16) return attempt_of(0);
    return attempt_of(malloc(size ? size : 1));
}

struct attempt rattle_realloc(void *block, uint64_t kept, uint64_t size, uint64_t align) {
    (void)kept;
    if (size > LONGEST || align > 16) return attempt_of(0);
    return attempt_of(realloc(block, size ? size : 1));
}

void rattle_dealloc(void *block) { free(block); }

static int grows(uint64_t pages) { return __builtin_wasm_memory_grow(0, pages) != (size_t)-1; }

/* malloc asks this for more memory. The host is asked for a quarter more of what there is at a time, since each growth
 * costs it much: of the run of a large file it took two thirds where malloc's own function asked for a page. */
void *sbrk(intptr_t count) {
    static uint64_t end, limit;
    if (limit == 0) {
        end = ((uintptr_t)&__heap_base + 15) & ~(uint64_t)15;
        limit = (uint64_t)__builtin_wasm_memory_size(0) << 16;
    }
    if (count < 0) return (void *)-1;
    uint64_t wanted = end + (uint64_t)count;
    if (wanted > limit) {
        uint64_t needed = (wanted - limit + 65535) >> 16, quarter = limit >> 18;
        uint64_t pages = quarter > needed ? quarter : needed;
        if (!grows(pages)) {
            pages = needed;
            if (!grows(pages)) return (void *)-1;
        }
        limit += pages << 16;
    }
    void *block = (void *)(uintptr_t)end;
    end = wanted;
    return block;
}
