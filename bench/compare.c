/* compare.c - a library's results against the yardstick's, byte for byte. */
#include "compare.h"
#include "stream.h"
#include "traces.h"
#include <stdio.h>
#include <string.h>

enum { FILL = 0xa5, AROUND = 64 };

/* What a call returned, and buffers as they are lent: with bytes around them that must stay. */
typedef struct {
    int32_t returned;
    uint8_t out[AROUND + OUT_ROOM + AROUND];
    uint8_t totals[AROUND + TOTALS + AROUND];
} lent;

static void fill(lent *b)
{
    memset(b, FILL, sizeof *b);
}

/* The buffers must be equal in every byte, those around and behind the records too. */
static int same(const char *differs, const char *name, size_t n, size_t piece, const lent *e, const lent *f)
{
    if (e->returned != f->returned) {
        printf("%s: %s, %zu ticks in pieces of %zu: returned %d, not %d\n",
               differs, name, n, piece, (int)f->returned, (int)e->returned);
        return 0;
    }
    for (size_t i = 0; i < sizeof e->out; i++)
        if (e->out[i] != f->out[i]) {
            printf("%s: %s, %zu ticks in pieces of %zu: byte %ld of out, which has %d records, is %02x, not %02x\n",
                   differs, name, n, piece, (long)i - AROUND, (int)f->returned, f->out[i], e->out[i]);
            return 0;
        }
    for (size_t i = 0; i < sizeof e->totals; i++)
        if (e->totals[i] != f->totals[i]) {
            printf("%s: %s, %zu ticks in pieces of %zu: byte %ld of totals is %02x, not %02x\n",
                   differs, name, n, piece, (long)i - AROUND, f->totals[i], e->totals[i]);
            return 0;
        }
    return 1;
}

static void count(tally *t, const char *name, size_t n, size_t piece, const lent *expected, const lent *found)
{
    if (same(t->differs, name, n, piece, expected, found)) t->passed++;
    else t->failed++;
}

/* One sweep in pieces. Of its mode and azimuth nothing is handed out: the yardstick's is the same for all. */
static void compare_opened(tally *t, const char *name, uint8_t mode, uint16_t azimuth,
                           const uint8_t *flags, const uint8_t *values, size_t n, size_t piece)
{
    static lent expected, found;
    fill(&expected);
    fill(&found);
    expected.returned = yardstick_sweep(1, 0, flags, n, values, n, piece, expected.out + AROUND, OUT_ROOM,
                                        expected.totals + AROUND, TOTALS);
    found.returned = t->sweep(mode, azimuth, flags, n, values, n, piece, found.out + AROUND, WHOLE_BYTES(n),
                              found.totals + AROUND, TOTALS);
    count(t, name, n, piece, &expected, &found);
}

void compare_sweep(tally *t, const char *name, const uint8_t *flags, const uint8_t *values, size_t n, size_t piece)
{
    compare_opened(t, name, 1, 0, flags, values, n, piece);
}

void compare_cuttings(tally *t)
{
    static const size_t lengths[] = { 0, 1, 2, 63, 64, 65, 177, 178, 205, 206, 207, 300, 384, 385, 386, 500, 1000, 3000, 5000 };
    static const size_t pieces[] = { 1, 3, 63, 64, 65, 205, 206, 1000, 4095, 4096 };
    static uint8_t flags[5008], values[5008];
    uint64_t seed = 1;
    for (int i = 0; i < SCENES; i++)
        for (size_t j = 0; j < sizeof lengths / sizeof *lengths; j++)
            for (size_t k = 0; k < sizeof pieces / sizeof *pieces; k++, seed++) {
                /* slices that start at any byte */
                uint8_t *f = flags + seed % 8, *v = values + seed / 8 % 8;
                paint_trace(&scenes[i], seed, f, v, lengths[j]);
                compare_sweep(t, scenes[i].name, f, v, lengths[j], pieces[k]);
            }
}

void compare_openings(tally *t)
{
    static uint8_t flags[1000], values[1000];
    paint_trace(&scenes[3], 1, flags, values, 1000);
    for (int mode = 1; mode <= 3; mode++)
        for (int azimuth = 0; azimuth <= 16383; azimuth += 16383) {
            char name[32];
            snprintf(name, sizeof name, "mode %d, azimuth %d", mode, azimuth);
            compare_opened(t, name, (uint8_t)mode, (uint16_t)azimuth, flags, values, 1000, 64);
        }
}

/* ------------------------------------------------------------------ refusals */

enum { TICKS = ARP_SWEEP + 1 };
static uint8_t quiet[TICKS], bad[TICKS];

typedef struct {
    uint8_t mode;
    uint16_t azimuth;
    const uint8_t *flags;
    size_t flags_len, values_len, piece, out_len, totals_len;
} arguments;

static void expect_refusal(tally *t, int number, arguments a)
{
    static lent untouched, found;
    fill(&untouched);
    fill(&found);
    untouched.returned = -number;
    found.returned = t->sweep(a.mode, a.azimuth, a.flags, a.flags_len, quiet, a.values_len, a.piece,
                              found.out + AROUND, a.out_len, found.totals + AROUND, a.totals_len);
    char name[32];
    snprintf(name, sizeof name, "refusal %d", number);
    count(t, name, a.flags_len, a.piece, &untouched, &found);
}

/* Changes an argument so that one refusal holds. The variants stand in the order of their numbers. */
enum { VARIANTS = 12 };
static int spoil(arguments *a, int variant)
{
    switch (variant) {
    case 0: a->mode = 0; return 1;
    case 1: a->mode = 4; return 1;
    case 2: a->mode = 255; return 1;
    case 3: a->azimuth = 16384; return 2;
    case 4: a->azimuth = 65535; return 2;
    case 5: a->values_len--; return 4;
    case 6: a->piece = 0; return 5;
    case 7: a->piece = ARP_PIECE + 1; return 5;
    case 8: a->values_len += TICKS - a->flags_len; a->flags_len = TICKS; a->out_len = OUT_ROOM; return 6;
    case 9: a->out_len = WHOLE_BYTES(a->flags_len) - 1; return 7;
    case 10: a->totals_len = TOTALS - 1; return 7;
    default: a->flags = bad; return 8;
    }
}

/* A bad byte at each of some places of a trace that has replies before it. */
static void expect_bad_bytes(tally *t, arguments good)
{
    static const uint8_t bytes[] = { 0x06, 0x07, 0x0e, 0x10, 0x20, 0x40, 0x80 };
    static uint8_t values[1000];
    for (size_t i = 0; i < sizeof bytes; i++)
        for (size_t at = 0; at < 1000; at += 111) {
            paint_trace(&scenes[3], i, bad, values, 1000);
            bad[at] = bytes[i];
            arguments a = good;
            a.flags = bad;
            expect_refusal(t, 8, a);
        }
}

void compare_refusals(tally *t)
{
    const arguments good = { 1, 16383, quiet, 1000, 1000, 64, WHOLE_BYTES(1000), TOTALS };
    expect_bad_bytes(t, good);
    for (int first = 0; first < VARIANTS; first++)
        for (int second = first; second < VARIANTS; second++) {
            arguments a = good;
            spoil(&a, second);
            const int number = spoil(&a, first);
            expect_refusal(t, number, a);
        }
}
