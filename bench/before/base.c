/* base.c - the form base of an earlier build: a sweep in pieces, records of 18 bytes, totals of 12. */
#include "../sweeps.h"

int32_t before_sweep(uint8_t mode, uint16_t azimuth, const uint8_t *flags, size_t flags_len,
                     const uint8_t *values, size_t values_len, size_t piece,
                     uint8_t *out, size_t out_len, uint8_t *totals, size_t totals_len);

int32_t earlier_sweep(uint8_t mode, uint16_t azimuth, const uint8_t *flags, size_t flags_len,
                      const uint8_t *values, size_t values_len, size_t piece,
                      uint8_t *out, size_t out_len, uint8_t *totals, size_t totals_len)
{
    return before_sweep(mode, azimuth, flags, flags_len, values, values_len, piece, out, out_len, totals, totals_len);
}
