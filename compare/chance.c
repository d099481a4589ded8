#include "chance.h"

static uint64_t state = 1;

void seed_with(uint64_t seed)
{
    state = (seed + 1) * UINT64_C(0x9E3779B97F4A7C15);
    state ^= state >> 29;
    if (state == 0)
        state = 1;
}

// xorshift64*
uint64_t chance(void)
{
    state ^= state >> 12;
    state ^= state << 25;
    state ^= state >> 27;
    return state * UINT64_C(0x2545F4914F6CDD1D);
}

uint32_t below(uint32_t limit)
{
    return (uint32_t)((chance() >> 32) * limit >> 32);
}

int one_in(uint32_t n)
{
    return below(n) == 0;
}
