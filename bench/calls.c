/* calls.c - carries out the calls that standard input has with the yardstick's operations, so that
   model/compare-calls can compare them with the model. Reads and writes what the proved test
   program crates/test_calls does; the forms of a call and of an outcome stand at the top of its
   main.rt. The 20 words and the four places of an outcome hold the yardstick's own, and zeros
   behind them. */
#include "stream.h"
#include <stdio.h>
#include <stdlib.h>
#include <string.h>

enum { RECORDED = 8192, CALL = 17, TOLD = 968, LENT = 2048 };
enum { END, OPEN, TAKE, CLOSE };

typedef struct {
    uint8_t kind, shown, mode, around, fill;
    unsigned azimuth, flags_start, flags, values_start, values, lent;
} call;

static _Noreturn void give_up(const char *why)
{
    fprintf(stderr, "calls: %s\n", why);
    exit(0);
}

static unsigned number(const uint8_t *p)
{
    return (unsigned)p[0] << 8 | p[1];
}

static call read_call(void)
{
    uint8_t b[CALL];
    if (fread(b, 1, CALL, stdin) != CALL) give_up("the input ends without its end");
    return (call){ b[0], b[1], b[2], b[3], b[4], number(b + 5), number(b + 7), number(b + 9),
                   number(b + 11), number(b + 13), number(b + 15) };
}

static uint8_t *put(uint8_t *p, uint64_t x)
{
    for (int i = 0; i < 8; i++) p[i] = (uint8_t)(x >> (56 - 8 * i));
    return p + 8;
}

static void put_processor(uint8_t *out, const arp_state *s)
{
    uint8_t *p = out + 64;
    memset(p, 0, TOLD - 64);
    p = put(put(put(p, s->mode), s->azimuth), s->taken);
    for (int i = 0; i < 3; i++) p = put(p, s->edge[i]);
    for (int i = 0; i < 3; i++) p = put(p, s->beam[i]);
    put(put(put(put(put(put(p, s->a), s->p), s->n), s->lead), s->calm), s->chain);
    for (unsigned i = 0; i < 256; i++) out[248 + i] = s->value[(s->taken + i) & 255];
    for (int i = 0; i < ARP_OPEN; i++) {
        const arp_reply *y = &s->reply[i];
        p = put(out + 504 + 104 * i, (unsigned)i < s->open);
        put(put(put(put(put(put(put(p, (uint32_t)y->q), y->ref), y->acc), y->code), y->conf), y->wait), y->flags);
    }
    put(put(put(put(put(out + 920, s->replies), s->sidelobe), s->garbled), s->lost), s->phantoms);
}

/* Writes the outcome; `out` has the lent buffer behind what is told. */
static void tell(const call *c, uint8_t *out, int answer, const arp_totals *t, const arp_state *s)
{
    put(put(out, answer < 0 ? 2 : 1), (uint64_t)abs(answer));
    put(put(put(put(put(put(out + 16, t->found), t->replies), t->sidelobe), t->garbled), t->lost), t->phantoms);
    if (c->shown) put_processor(out, s);
    fwrite(out, 1, TOLD + c->lent, stdout);
    fflush(stdout);
}

/* The samples of a take, in the middle of a recording. */
static const uint8_t *read_samples(const call *c, uint8_t *recording, unsigned start, unsigned n, const char *short_of)
{
    memset(recording, c->around, RECORDED);
    if (fread(recording + start, 1, n, stdin) != n) give_up(short_of);
    return recording + start;
}

static int take(const call *c, arp_state *s, uint8_t *lent)
{
    static uint8_t flags[RECORDED], values[RECORDED];
    if (c->flags_start + c->flags > RECORDED) give_up("flags reach beyond their recording");
    if (c->values_start + c->values > RECORDED) give_up("values reach beyond their recording");
    const uint8_t *f = read_samples(c, flags, c->flags_start, c->flags, "the input ends within flags");
    const uint8_t *v = read_samples(c, values, c->values_start, c->values, "the input ends within values");
    if (c->lent > LENT) give_up("a lent buffer is over 2048 bytes");
    return arp_take(s, f, c->flags, v, c->values, lent, c->lent);
}

/* Returns 0 at the end of the calls. */
static int carry_out(const call *c, arp_state *s)
{
    static const arp_state idle;    /* what a refused opening gives */
    static uint8_t out[TOLD + LENT];
    arp_totals totals = { 0, 0, 0, 0, 0, 0 };
    int answer;
    if (c->shown > 1) give_up("a processor is shown or not, by 1 or 0");
    if (c->kind != TAKE && (c->flags || c->values)) give_up("samples belong to a take");
    memset(out, c->fill, sizeof out);
    switch (c->kind) {
    case END:
        return 0;
    case OPEN:
        if (c->lent) give_up("an open is lent no buffer");
        answer = arp_open(s, c->mode, c->azimuth);
        break;
    case TAKE:
        answer = take(c, s, out + TOLD);
        break;
    case CLOSE:
        if (c->lent > LENT) give_up("a lent buffer is over 2048 bytes");
        answer = arp_close(s, out + TOLD, c->lent, &totals);
        break;
    default:
        give_up("an unknown kind of call");
    }
    tell(c, out, answer, &totals, c->kind == OPEN && answer < 0 ? &idle : s);
    return 1;
}

int main(void)
{
    static arp_state s;             /* idle: all zero */
    call c;
    do c = read_call(); while (carry_out(&c, &s));
    return 0;
}
