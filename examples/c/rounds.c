/* The rounds of a hash: two blocks of four words are mixed into a state of four, eight times each. */

static const unsigned CONSTANTS[4] = {0x5a827999, 0x6ed9eba1, 0x8f1bbcdc, 0xca62c1d6};
static const unsigned BLOCKS[8] = {
    0x61626380, 0x00000000, 0x00000000, 0x00000018, 0xdeadbeef, 0x01234567, 0x89abcdef, 0x0badf00d,
};
static unsigned state[4] = {0x67452301, 0xefcdab89, 0x98badcfe, 0x10325476};

static inline unsigned rotated(unsigned x, unsigned count)
{
    return x << count | x >> (32 - count);
}

static __attribute__((noinline)) void mix(unsigned *s, const unsigned *block)
{
    unsigned a = s[0], b = s[1], c = s[2], d = s[3];
    for (unsigned i = 0; i < 8; i++) {
        unsigned next = rotated(a, 5) + ((b & c) | (~b & d)) + block[i & 3] + CONSTANTS[i >> 1];
        d = c;
        c = rotated(b, 30);
        b = a;
        a = next;
    }
    s[0] += a, s[1] += b, s[2] += c, s[3] += d;
}

unsigned hash(void)
{
    mix(state, BLOCKS);
    mix(state, BLOCKS + 4);
    return state[0] ^ state[1] ^ state[2] ^ state[3];
}
