#include "random.h"

static uint64_t state;

/* splitmix64 */
uint64_t random_bits(void)
{
    uint64_t z = state += UINT64_C(0x9E3779B97F4A7C15);
    z = (z ^ (z >> 30)) * UINT64_C(0xBF58476D1CE4E5B9);
    z = (z ^ (z >> 27)) * UINT64_C(0x94D049BB133111EB);
    return z ^ (z >> 31);
}

void random_begin(uint64_t seed, uint64_t call)
{
    state = seed;
    state = random_bits() ^ call;
    state = random_bits();
}

uint64_t below(uint64_t n)
{
    return n ? random_bits() % n : 0;
}

bool one_in(uint64_t n)
{
    return below(n) == 0;
}
