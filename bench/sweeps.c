/* sweeps.c - the yardstick's operations, a whole sweep in one call. */
#include "sweeps.h"
#include "stream.h"

static void put_totals(uint8_t *p, const arp_totals *t)
{
    const uint16_t w[6] = { t->found, t->replies, t->sidelobe, t->garbled, t->lost, t->phantoms };
    for (int i = 0; i < 6; i++) { p[2 * i] = (uint8_t)(w[i] >> 8); p[2 * i + 1] = (uint8_t)w[i]; }
}

int32_t yardstick_sweep(uint8_t mode, uint16_t azimuth, const uint8_t *flags, size_t flags_len,
                        const uint8_t *values, size_t values_len, size_t piece,
                        uint8_t *out, size_t out_len, uint8_t *totals, size_t totals_len)
{
    arp_state s;
    arp_totals t;
    size_t at = 0;
    int got = arp_open(&s, mode, azimuth);
    if (got < 0) return got;
    if (flags_len != values_len) return -4;
    if (piece == 0) return -5;
    if (totals_len < TOTALS) return -7;
    for (size_t from = 0; from < flags_len; from += piece) {
        const size_t n = flags_len - from < piece ? flags_len - from : piece;
        got = arp_take(&s, flags + from, n, values + from, n, out + at, out_len - at);
        if (got < 0) return got;
        at += (size_t)got * ARP_RECORD;
    }
    got = arp_close(&s, out + at, out_len - at, &t);
    if (got < 0) return got;
    put_totals(totals, &t);
    return (int32_t)(at / ARP_RECORD) + got;
}
