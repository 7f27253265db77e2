#include "random.h"

#include <string.h>

static uint64_t state;

void random_seed(uint64_t seed)
{
    state = seed;
    state = random_next();
}

uint64_t random_next(void)
{
    state += 0x9e3779b97f4a7c15;
    uint64_t x = state;
    x = (x ^ x >> 30) * 0xbf58476d1ce4e5b9;
    x = (x ^ x >> 27) * 0x94d049bb133111eb;
    return x ^ x >> 31;
}

size_t below(size_t end)
{
    return random_next() % end;
}

size_t between(size_t least, size_t most)
{
    return least + below(most - least + 1);
}

bool one_in(size_t n)
{
    return below(n) == 0;
}

size_t any_number(size_t end)
{
    static const unsigned edges[] = {8, 16, 31, 32, 40, 63};
    if (!one_in(4))
        return below(end + 1);
    switch (below(5)) {
    case 0:
        return end + below(3);
    case 1: /* just before or behind a power of two */
        return ((size_t)1 << edges[below(6)]) + below(5) - 2;
    case 2: /* low bits that would do, below high ones */
        return ((size_t)1 << edges[below(6)]) + below(end);
    case 3:
        return SIZE_MAX - below(70);
    default:
        return random_next();
    }
}

size_t any_length(size_t needed)
{
    switch (below(16)) {
    case 0:
        return needed + 1;
    case 1:
        return needed + between(1, MOST_MORE);
    case 2:
        return needed - (needed > 0);
    case 3:
        return below(needed + 1);
    case 4:
        return 0;
    default:
        return needed;
    }
}

uint64_t any_hidden(size_t cells)
{
    uint64_t every = UINT64_MAX >> (64 - cells), one = UINT64_C(1) << below(cells);
    switch (below(8)) {
    case 0:
        return one;
    case 1:
        return every ^ one;
    case 2:
        return every;
    case 3:
        return every & random_next() & random_next();
    case 4:
        return every & random_next();
    case 5: /* bits beyond the cells, unless there are 64 */
        return one_in(4) ? random_next() : one_in(2) ? one << 1 : UINT64_C(1) << 63;
    default:
        return 0;
    }
}

void fill(uint8_t *bytes, size_t size)
{
    size_t kind = below(4);
    if (kind < 2) {
        memset(bytes, kind == 0 ? 0x00 : 0xff, size);
        return;
    }
    for (size_t at = 0; at < size; at += 8) {
        uint64_t word = random_next();
        memcpy(bytes + at, &word, size - at < 8 ? size - at : 8);
    }
}
