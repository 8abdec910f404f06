/* The Adler-32 of some bytes (RFC 1950), and a function that keeps the sum of a text. */

static const unsigned MODULUS = 65521;

__attribute__((noinline)) unsigned adler32(const unsigned char *bytes, unsigned count)
{
    unsigned a = 1, b = 0;
    for (; count > 0; count--) {
        a += *bytes++;
        if (a >= MODULUS)
            a -= MODULUS;
        b += a;
        if (b >= MODULUS)
            b -= MODULUS;
    }
    return b << 16 | a;
}

unsigned kept;

unsigned keep(const unsigned char *text, unsigned count)
{
    kept = adler32(text, count);
    return kept;
}
