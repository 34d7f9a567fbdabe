/* splitmix64 */
#include "strength.h"

static uint64_t state;

void seed(uint64_t value)
{
    state = value;
}

uint64_t any(void)
{
    state += 0x9e3779b97f4a7c15u;
    uint64_t z = state;
    z = (z ^ (z >> 30)) * 0xbf58476d1ce4e5b9u;
    z = (z ^ (z >> 27)) * 0x94d049bb133111ebu;
    return z ^ (z >> 31);
}

size_t below(size_t limit)
{
    return any() % limit;
}

bool once_in(size_t times)
{
    return below(times) == 0;
}
