/* A key in base64, as it stands in a text of settings. */

static const char DIGITS[64] = "ABCDEFGHIJKLMNOPQRSTUVWXYZabcdefghijklmnopqrstuvwxyz0123456789+/";
static const unsigned char KEY[10] = {0x14, 0xfb, 0x9c, 0x03, 0xd9, 0x7e, 0x00, 0xff, 0x5a, 0x81};
static char text[20];

static __attribute__((noinline)) void put_group(char *to, unsigned group, unsigned count)
{
    for (unsigned i = 0; i < 4; i++)
        to[i] = i <= count ? DIGITS[group >> (18 - 6 * i) & 63] : '=';
}

static __attribute__((noinline)) unsigned encode(char *to, const unsigned char *bytes, unsigned count)
{
    unsigned written = 0;
    for (unsigned at = 0; at < count; at += 3) {
        unsigned left = count - at, group = bytes[at] << 16;
        if (left > 1)
            group |= bytes[at + 1] << 8;
        if (left > 2)
            group |= bytes[at + 2];
        put_group(to + written, group, left > 3 ? 3 : left);
        written += 4;
    }
    return written;
}

unsigned key_in_base64(void)
{
    unsigned count = encode(text, KEY, sizeof KEY), sum = 0;
    for (unsigned i = 0; i < count; i++)
        sum = (sum << 7 | sum >> 25) ^ (unsigned char)text[i];
    return sum;
}
