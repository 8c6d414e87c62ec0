/* sweeps.h - a whole sweep in one call, by the proved library (crates/whole) and by the yardstick.

   The trace is taken in pieces of `piece` ticks, the last of which may be shorter. The records go to the start of
   `out`, the six totals (2 bytes each, high byte first) to `totals`. Returns the count of records, or minus a
   refusal number: 1 mode, 2 azimuth, 4 lengths differ, 5 piece is 0 or over 4,096, 6 over 32,768 ticks, 7 `out` under
   72 x ceil(n/206) + 144 bytes or `totals` under 12, 8 a bad flag byte; the first that holds. */
#ifndef SWEEPS_H
#define SWEEPS_H
#include <stddef.h>
#include <stdint.h>

enum { TOTALS = 12, OUT_ROOM = 1 << 14 };

/* The least length of `out` for n ticks. */
#define WHOLE_BYTES(n) (ARP_TAKE_BYTES(n) + ARP_CLOSE_BYTES)

typedef int32_t sweep_function(uint8_t mode, uint16_t azimuth, const uint8_t *flags, size_t flags_len,
                               const uint8_t *values, size_t values_len, size_t piece,
                               uint8_t *out, size_t out_len, uint8_t *totals, size_t totals_len);

/* Writes nothing where it refuses. */
sweep_function whole_sweep;

/* The yardstick's operations one after the other and no test beside theirs: it is only called with what is
   accepted, and with OUT_ROOM bytes for the records. */
sweep_function yardstick_sweep;

/* An earlier build of the library, by the file of its form in before/. Its own function, there called before_sweep, may
   have another form than whole_sweep. */
sweep_function earlier_sweep;

#endif
