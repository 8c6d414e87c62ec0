/* survey.c - reads frames on standard input, prints replies, totals and a refusal on standard
   output (01-scope.md, "Frames, one a line"), and as the proved program does, a refusal's place in
   the input on standard error. */
#include "stream.h"
#include <stdio.h>
#include <string.h>

enum { MAXDIGITS = 258, BUF = 1 << 16 };

static const char digits[] = "0123456789abcdef";

/* 0 to 15, or 16 for another character */
static uint8_t digit[256];

static void set_up_digits(void)
{
    memset(digit, 16, sizeof digit);
    for (unsigned i = 0; i < 16; i++) digit[(unsigned char)digits[i]] = (uint8_t)i;
}

static void print_frame(unsigned kind, const uint8_t *p, size_t n)
{
    char line[2 + 2 * ARP_RECORD + 1];
    size_t at = 0;
    line[at++] = digits[kind >> 4];
    line[at++] = digits[kind & 15];
    for (size_t i = 0; i < n; i++) {
        line[at++] = digits[p[i] >> 4];
        line[at++] = digits[p[i] & 15];
    }
    line[at++] = '\n';
    fwrite(line, 1, at, stdout);
}

static void print_records(const uint8_t *p, int count)
{
    for (int i = 0; i < count; i++) print_frame(0x11, p + i * ARP_RECORD, ARP_RECORD);
}

/* One line without its newline. Returns 0 or the refusal number. */
static int line(arp_state *s, const uint8_t *text, size_t len)
{
    uint8_t b[MAXDIGITS / 2] = { 0 };
    if (len == 0 || len > MAXDIGITS || len % 2) return 9;
    unsigned bad = 0;
    for (size_t i = 0; i < len / 2; i++) {
        unsigned hi = digit[text[2 * i]], lo = digit[text[2 * i + 1]];
        bad |= hi | lo;
        b[i] = (uint8_t)(hi << 4 | (lo & 15));
    }
    if (bad & 16) return 9;
    size_t n = len / 2;
    int got;
    switch (b[0]) {
    case 1:
        if (n != 4) return 10;
        got = arp_open(s, b[1], (unsigned)b[2] << 8 | b[3]);
        return got < 0 ? -got : 0;
    case 2: {
        uint8_t flags[64], values[64], out[72];
        if (n < 3 || n % 2 == 0) return 10;          /* at most 64 pairs by the line's length */
        size_t k = (n - 1) / 2;
        for (size_t i = 0; i < k; i++) { flags[i] = b[1 + 2 * i]; values[i] = b[2 + 2 * i]; }
        got = arp_take(s, flags, k, values, k, out, sizeof out);
        if (got < 0) return -got;
        print_records(out, got);
        return 0;
    }
    case 3: {
        uint8_t out[ARP_CLOSE_BYTES], t[12];
        arp_totals x;
        if (n != 1) return 10;
        got = arp_close(s, out, sizeof out, &x);
        if (got < 0) return -got;
        print_records(out, got);
        const uint16_t w[6] = { x.found, x.replies, x.sidelobe, x.garbled, x.lost, x.phantoms };
        for (int i = 0; i < 6; i++) { t[2 * i] = (uint8_t)(w[i] >> 8); t[2 * i + 1] = (uint8_t)w[i]; }
        print_frame(0x12, t, sizeof t);
        return 0;
    }
    default:
        return 10;
    }
}

int main(void)
{
    static uint8_t buf[BUF];
    static arp_state s;             /* idle: all zero */
    size_t have = 0, before = 0;    /* bytes in buf, and bytes of the input before it */
    size_t refused = 0;             /* bytes of the refused line */
    int refusal = 0, ended = 0;
    set_up_digits();
    while (!refusal && !ended) {
        size_t got = fread(buf + have, 1, BUF - have, stdin), at = 0;
        have += got;
        ended = got == 0;
        while (!refusal) {
            const uint8_t *nl = memchr(buf + at, '\n', have - at);
            if (!nl) break;
            const size_t len = (size_t)(nl - (buf + at));
            refusal = line(&s, buf + at, len);
            if (refusal) { refused = len + 1; break; }
            at += len + 1;
        }
        have -= at;
        before += at;
        memmove(buf, buf + at, have);
        /* a rest that is too long already, or that no newline ends */
        if (!refusal && (have > MAXDIGITS || (ended && have))) { refusal = 9; refused = have; }
    }
    if (refusal) {
        uint8_t number = (uint8_t)refusal;
        print_frame(0x1f, &number, 1);
        /* certain after the line, or after one byte more than a line's most digits */
        fprintf(stderr, "refusal %d at byte %zu\n", refusal, before + (refused > MAXDIGITS ? MAXDIGITS + 1 : refused));
    }
    return 0;
}
