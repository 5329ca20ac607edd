#include "streams.h"

uint8_t stream[STREAM_SIZE];
static unsigned filled;
static uint64_t seed;

/* splitmix64 */
static unsigned below(unsigned n)
{
    uint64_t z = seed += 0x9E3779B97F4A7C15;
    z = (z ^ z >> 30) * 0xBF58476D1CE4E5B9;
    z = (z ^ z >> 27) * 0x94D049BB133111EB;
    return (unsigned)((z ^ z >> 31) % n);
}

static void put(unsigned byte)
{
    if (filled < STREAM_SIZE)
        stream[filled++] = (uint8_t)byte;
}

static void put_noise(unsigned count)
{
    while (count-- > 0)
        put(below(256));
}

static unsigned put_checked(unsigned byte, unsigned check)
{
    put(byte);
    return check ^ byte;
}

/* A frame whose check is wrong by `damage`. */
static void put_frame(unsigned preambles, unsigned delimiter, unsigned count, unsigned damage)
{
    unsigned check, i, address_length = delimiter & 0x80 ? 5 : 1;
    for (i = 0; i < preambles; i++)
        put(0xFF);
    check = put_checked(delimiter, 0);
    for (i = 0; i < address_length + 1; i++)
        check = put_checked(below(256), check);
    check = put_checked(count, check);
    for (i = 0; i < count; i++)
        check = put_checked(below(256), check);
    put(check ^ damage);
}

/* Long responses of 8 to 40 data bytes behind 10 FF. One in 20 has a wrong check, and behind one in
 * 10 there is noise. Two draws never stand in one call: C leaves open which of its arguments comes
 * first, and compilers differ. */
static void put_realistic(void)
{
    unsigned count = 8 + below(33);
    unsigned damage = below(20) == 0 ? 1 + below(255) : 0;
    put_frame(10, 0x86, count, damage);
    if (below(10) == 0)
        put_noise(1 + below(30));
}

const char *const stream_names[STREAMS] = {"realistic", "noise", "shortest frames",
                                           "longest frames", "half FF"};

void make_stream(int number)
{
    seed = 2026;
    filled = 0;
    while (filled < STREAM_SIZE)
        switch (number) {
        case 0: put_realistic(); break;
        case 1: put_noise(1); break;
        case 2: put_frame(5, 0x02, 0, 0); break;
        case 3: put_frame(5, 0x86, 255, 0); break;
        default: put(below(2) == 0 ? 0xFF : below(256));
        }
}

void make_bytes(uint8_t *bytes, unsigned count)
{
    seed = 2026;
    while (count-- > 0)
        *bytes++ = (uint8_t)below(256);
}
