/* The median of some samples, which are sorted by insertion. */

static unsigned short samples[11] = {512, 498, 530, 17, 505, 1023, 511, 500, 0, 521, 509};

static __attribute__((noinline)) void insert(unsigned short *sorted, unsigned count, unsigned sample)
{
    while (count > 0 && sorted[count - 1] > sample) {
        sorted[count] = sorted[count - 1];
        count--;
    }
    sorted[count] = sample;
}

static __attribute__((noinline)) void sort(unsigned short *numbers, unsigned count)
{
    for (unsigned i = 1; i < count; i++)
        insert(numbers, i, numbers[i]);
}

unsigned median(void)
{
    sort(samples, 11);
    return samples[5];
}
