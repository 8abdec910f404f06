/* Calibration: the value between two entries of a table of readings, which are found by binary search. */

static const unsigned short READINGS[9] = {12, 40, 96, 200, 310, 512, 700, 900, 1023};
static const unsigned short DEGREES[9] = {0, 5, 11, 20, 31, 44, 58, 71, 80};

/* The first entry that is no less than a reading, or the last one. */
static __attribute__((noinline)) unsigned place_of(unsigned reading)
{
    unsigned low = 0, high = 8;
    while (low < high) {
        unsigned middle = (low + high) >> 1;
        if (READINGS[middle] < reading)
            low = middle + 1;
        else
            high = middle;
    }
    return low;
}

unsigned degrees(unsigned reading)
{
    return DEGREES[place_of(reading)];
}
