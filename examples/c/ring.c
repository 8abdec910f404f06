/* A ring buffer between an interrupt, which puts bytes, and a main loop, which takes them. */

static struct {
    unsigned char bytes[16];
    unsigned head, tail;
} ring;

static const unsigned char RECEIVED[21] = "AT+CFUN=1;+CREG?;+CSQ";

static __attribute__((noinline)) unsigned is_put(unsigned char byte)
{
    unsigned next = (ring.head + 1) & 15;
    if (next == ring.tail)
        return 0;
    ring.bytes[ring.head] = byte;
    ring.head = next;
    return 1;
}

static __attribute__((noinline)) int taken(void)
{
    if (ring.tail == ring.head)
        return -1;
    unsigned char byte = ring.bytes[ring.tail];
    ring.tail = (ring.tail + 1) & 15;
    return byte;
}

/* Puts what was received, takes two bytes where the ring is full, and the rest at the end. */
unsigned passed_on(void)
{
    unsigned sum = 0;
    for (unsigned i = 0; i < sizeof RECEIVED; i++)
        while (!is_put(RECEIVED[i])) {
            sum = (sum << 5 | sum >> 27) ^ taken();
            sum = (sum << 5 | sum >> 27) ^ taken();
        }
    for (int byte = taken(); byte >= 0; byte = taken())
        sum = (sum << 5 | sum >> 27) ^ byte;
    return sum;
}
