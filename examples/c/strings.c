/* A message that is put together from its parts by the functions of string.h. */

static char line[32];

static __attribute__((noinline)) unsigned length_of(const char *text)
{
    const char *end = text;
    while (*end != 0)
        end++;
    return (unsigned)(end - text);
}

static __attribute__((noinline)) char *copied(char *to, const char *from, unsigned count)
{
    for (unsigned i = 0; i < count; i++)
        to[i] = from[i];
    return to + count;
}

static __attribute__((noinline)) unsigned is_equal(const char *one, const char *other)
{
    while (*one != 0 && *one == *other)
        one++, other++;
    return *one == *other;
}

unsigned message(void)
{
    static const char HEAD[] = "error: ", BODY[] = "no carrier";
    char *end = copied(line, HEAD, length_of(HEAD));
    end = copied(end, BODY, length_of(BODY));
    *end = 0;
    return length_of(line) << 1 | is_equal(line, "error: no carrier");
}
