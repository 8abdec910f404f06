/* The CRC-16 of a frame (polynomial 1021, from ffff), by a table of sixteen words. Of "123456789" it is 29b1. */

static const unsigned short TABLE[16] = {
    0x0000, 0x1021, 0x2042, 0x3063, 0x4084, 0x50a5, 0x60c6, 0x70e7,
    0x8108, 0x9129, 0xa14a, 0xb16b, 0xc18c, 0xd1ad, 0xe1ce, 0xf1ef,
};

static const unsigned char FRAME[9] = "123456789";

static __attribute__((noinline)) unsigned by_four_bits(unsigned sum, unsigned bits)
{
    return (sum << 4 & 0xffff) ^ TABLE[(sum >> 12 ^ bits) & 15];
}

static __attribute__((noinline)) unsigned crc16(const unsigned char *bytes, unsigned count)
{
    unsigned sum = 0xffff;
    for (unsigned i = 0; i < count; i++) {
        sum = by_four_bits(sum, bytes[i] >> 4);
        sum = by_four_bits(sum, bytes[i]);
    }
    return sum;
}

unsigned crc16_of_frame(void)
{
    return crc16(FRAME, sizeof FRAME);
}
