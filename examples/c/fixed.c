/* The length of a vector of two numbers with 8 bits behind the point: products by shifts and additions, and a square root by bits. */

static __attribute__((noinline)) unsigned product(unsigned a, unsigned b)
{
    unsigned sum = 0;
    for (; b != 0; b >>= 1, a <<= 1)
        if (b & 1)
            sum += a;
    return sum;
}

static __attribute__((noinline)) unsigned root(unsigned x)
{
    unsigned found = 0;
    for (unsigned bit = 1u << 30; bit != 0; bit >>= 2) {
        if (x >= found + bit) {
            x -= found + bit;
            found = (found >> 1) + bit;
        } else {
            found >>= 1;
        }
    }
    return found;
}

unsigned length(unsigned x, unsigned y)
{
    return root(product(x, x) + product(y, y));
}
