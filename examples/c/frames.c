/* Frames of a serial line, taken apart by a state machine: 7e, a length, so many bytes, and their sum. 7d escapes the byte behind it. */

enum state { OUTSIDE, LENGTH, BYTES, SUM };

static struct {
    enum state state;
    unsigned char is_escaped, left, sum;
    unsigned good, bad;
} line;

static const unsigned char RECEIVED[22] = {
    0x00, 0x7e, 0x03, 0x10, 0x20, 0x30, 0x60, 0x7e, 0x02, 0x7d, 0x5e, 0x01, 0x7f, 0x55, 0x7e, 0x01, 0x44, 0x45, 0x7e, 0x01, 0x07, 0x07,
};

static __attribute__((noinline)) void take(unsigned byte)
{
    if (byte == 0x7e) {
        line.state = LENGTH;
        line.is_escaped = 0;
        return;
    }
    if (byte == 0x7d) {
        line.is_escaped = 1;
        return;
    }
    if (line.is_escaped)
        byte ^= 0x20;
    line.is_escaped = 0;
    switch (line.state) {
    case OUTSIDE:
        break;
    case LENGTH:
        line.left = byte;
        line.sum = 0;
        line.state = byte > 0 ? BYTES : SUM;
        break;
    case BYTES:
        line.sum += byte;
        if (--line.left == 0)
            line.state = SUM;
        break;
    case SUM:
        if (line.sum == byte)
            line.good++;
        else
            line.bad++;
        line.state = OUTSIDE;
        break;
    }
}

unsigned good_and_bad(void)
{
    for (unsigned i = 0; i < sizeof RECEIVED; i++)
        take(RECEIVED[i]);
    return line.good << 16 | line.bad;
}
