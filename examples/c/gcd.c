/* Divisors of a clock: the greatest common divisor by Euclid's algorithm, with a function that calls itself. */

static __attribute__((noinline)) unsigned rest(unsigned number, unsigned divisor)
{
    unsigned shifted = divisor;
    while (shifted <= number >> 1)
        shifted <<= 1;
    for (; shifted >= divisor; shifted >>= 1)
        if (number >= shifted)
            number -= shifted;
    return number;
}

__attribute__((noinline, noclone, optimize("no-optimize-sibling-calls"))) unsigned gcd(unsigned a, unsigned b)
{
    return b == 0 ? a : gcd(b, rest(a, b));
}

unsigned divisor(unsigned oscillator, unsigned rate)
{
    return gcd(oscillator, rate);
}
