/* A mask of pins: how many are set, the same mask turned round, and which is the first. */

static __attribute__((noinline)) unsigned count_of(unsigned mask)
{
    unsigned count = 0;
    for (; mask != 0; mask &= mask - 1)
        count++;
    return count;
}

static __attribute__((noinline)) unsigned turned(unsigned mask)
{
    mask = (mask & 0x55555555) << 1 | (mask >> 1 & 0x55555555);
    mask = (mask & 0x33333333) << 2 | (mask >> 2 & 0x33333333);
    mask = (mask & 0x0f0f0f0f) << 4 | (mask >> 4 & 0x0f0f0f0f);
    mask = (mask & 0x00ff00ff) << 8 | (mask >> 8 & 0x00ff00ff);
    return mask << 16 | mask >> 16;
}

static __attribute__((noinline)) unsigned first_of(unsigned mask)
{
    unsigned place = 0;
    while (place < 32 && !(mask >> place & 1))
        place++;
    return place;
}

unsigned pins(unsigned mask)
{
    return count_of(mask) << 16 | first_of(turned(mask)) << 8 | first_of(mask);
}
