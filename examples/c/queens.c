/* In how many ways so many queens stand on a board, by a function that calls itself in a loop. */

static __attribute__((noinline, noclone)) unsigned ways(unsigned free, unsigned columns, unsigned left, unsigned right)
{
    unsigned count = 0, places = free & ~(columns | left | right);
    if (columns == free)
        return 1;
    while (places != 0) {
        unsigned place = places & (0 - places);
        places -= place;
        count += ways(free, columns | place, (left | place) << 1, (right | place) >> 1);
    }
    return count;
}

unsigned queens(unsigned size)
{
    return ways((1u << size) - 1, 0, 0, 0);
}
