/* traces.c - the generator of the measured traces. Pulses are 3 or 4 ticks wide, with a rising slope at
   their first tick and a falling one at their last; a reply has them 12 ticks apart. */
#include "traces.h"
#include <string.h>

enum { A = 1, P = 2, N = 4, M = 8 };
enum { REPLY_TICKS = 17 * 12 + 5 };     /* SPI, a tick late and 4 wide, ends the longest */

const scene scenes[SCENES] = {
    { "quiet", REPLIES, 0 },
    { "0.5 replies per 1,000 ticks", REPLIES, 0.5 },
    { "2 replies per 1,000 ticks", REPLIES, 2 },
    { "10 replies per 1,000 ticks", REPLIES, 10 },
    { "40 replies per 1,000 ticks", REPLIES, 40 },
    { "random flags", RANDOM_FLAGS, 0 },
    { "long runs", LONG_RUNS, 0 },
    { "flags without an edge", SHORT_RUNS, 0 },
};

/* splitmix64 */
static uint64_t next(uint64_t *random)
{
    uint64_t z = *random += 0x9e3779b97f4a7c15u;
    z = (z ^ z >> 30) * 0xbf58476d1ce4e5b9u;
    z = (z ^ z >> 27) * 0x94d049bb133111ebu;
    return z ^ z >> 31;
}

/* A number under n, from the high bits. */
static unsigned under(uint64_t *random, unsigned n)
{
    return (unsigned)((next(random) >> 32) * n >> 32);
}

static int one_in(uint64_t *random, unsigned n)
{
    return under(random, n) == 0;
}

/* A slope in place of the one that was there. */
static void set_slope(uint8_t *flag, uint8_t slope)
{
    *flag = (uint8_t)((*flag & ~(P | N)) | slope);
}

static void paint_pulse(uint8_t *flags, uint8_t *values, size_t width, int main_beam, uint8_t value)
{
    for (size_t t = 0; t < width; t++) {
        flags[t] |= main_beam ? A | M : A;
        values[t] = value;
    }
    set_slope(&flags[0], P);
    set_slope(&flags[width - 1], N);
}

/* A reply with F1 at the start: half of the code's pulses, X and SPI seldom. Of eight replies seven come in the
   mainbeam, with values that differ by at most 2; of sixteen pulses one slips a tick to the right. */
static void paint_reply(uint64_t *random, uint8_t *flags, uint8_t *values)
{
    const int main_beam = !one_in(random, 8);
    const unsigned value = 2 + under(random, 252);
    for (unsigned k = 0; k <= 17; k++) {
        const int always = k == 0 || k == 14, seldom = k == 7 || k == 17, never = k == 15 || k == 16;
        const int sent = always || (!never && one_in(random, seldom ? 16 : 2));
        const size_t at = 12 * k + (size_t)(k != 0 && one_in(random, 16));
        const size_t width = 3 + under(random, 2);
        const uint8_t v = (uint8_t)(value - 2 + under(random, 5));
        if (sent) paint_pulse(flags + at, values + at, width, main_beam, v);
    }
}

static void paint_replies(uint64_t *random, double density, uint8_t *flags, uint8_t *values, size_t n)
{
    const size_t count = (size_t)(density * (double)n / 1000);
    if (n < REPLY_TICKS) return;
    for (size_t i = 0; i < count; i++) {
        const size_t q = under(random, (unsigned)(n - REPLY_TICKS + 1));
        paint_reply(random, flags + q, values + q);
    }
}

/* Every byte that document 01 does not call bad, all equally often. */
static void paint_random(uint64_t *random, uint8_t *flags, uint8_t *values, size_t n)
{
    static const uint8_t slopes[3] = { 0, P, N };
    for (size_t t = 0; t < n; t++) {
        flags[t] = (uint8_t)(slopes[under(random, 3)] | under(random, 2) * A | under(random, 2) * M);
        values[t] = (uint8_t)under(random, 256);
    }
}

/* Mainbeam runs of 20 to 400 ticks with 2 to 30 ticks between them. */
static void paint_runs(uint64_t *random, uint8_t *flags, uint8_t *values, size_t n)
{
    for (size_t t = 0; t < n; t += 2 + under(random, 29)) {
        const uint8_t value = (uint8_t)under(random, 256);
        for (size_t end = t + 20 + under(random, 381); t < n && t < end; t++) {
            flags[t] = A | M;
            values[t] = value;
        }
    }
}

/* Mainbeam runs of one tick, too short for a pulse, with 2 to 30 ticks between them: flags in every 64 ticks, and no edge. */
static void paint_specks(uint64_t *random, uint8_t *flags, uint8_t *values, size_t n)
{
    for (size_t t = 0; t < n; t += 3 + under(random, 29)) {
        flags[t] = A | M;
        values[t] = (uint8_t)under(random, 256);
    }
}

void paint_trace(const scene *scene, uint64_t seed, uint8_t *flags, uint8_t *values, size_t n)
{
    uint64_t random = seed;
    memset(flags, 0, n);
    memset(values, 0, n);
    switch (scene->content) {
    case REPLIES: paint_replies(&random, scene->density, flags, values, n); break;
    case RANDOM_FLAGS: paint_random(&random, flags, values, n); break;
    case LONG_RUNS: paint_runs(&random, flags, values, n); break;
    case SHORT_RUNS: paint_specks(&random, flags, values, n); break;
    }
}
