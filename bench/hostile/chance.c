#include "hostile.h"

struct chance chance_of(uint64_t seed)
{
    struct chance chance = {seed * UINT64_C(0x9e3779b97f4a7c15) + 1};
    draw(&chance);
    return chance;
}

/* SplitMix64. */
uint64_t draw(struct chance *chance)
{
    uint64_t mixed = chance->state += UINT64_C(0x9e3779b97f4a7c15);
    mixed = (mixed ^ mixed >> 30) * UINT64_C(0xbf58476d1ce4e5b9);
    mixed = (mixed ^ mixed >> 27) * UINT64_C(0x94d049bb133111eb);
    return mixed ^ mixed >> 31;
}

size_t below(struct chance *chance, size_t count)
{
    return (size_t)((unsigned __int128)draw(chance) * count >> 64);
}

bool one_in(struct chance *chance, size_t count)
{
    return below(chance, count) == 0;
}
