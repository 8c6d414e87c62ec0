/* compare.h - a library's results against the yardstick's, byte for byte. */
#ifndef COMPARE_H
#define COMPARE_H
#include "sweeps.h"

/* The function that is compared, how a difference is announced, and what was counted so far. */
typedef struct {
    sweep_function *sweep;
    const char *differs;
    unsigned passed, failed;
} tally;

/* One sweep in pieces; `name` is said where the results differ. */
void compare_sweep(tally *t, const char *name, const uint8_t *flags, const uint8_t *values, size_t n, size_t piece);

/* Traces of all scenes in many lengths and cuttings. */
void compare_cuttings(tally *t);

/* Every mode, with the first azimuth and the last: none is refused. */
void compare_openings(tally *t);

/* Every refusal, their order, and that nothing is written. */
void compare_refusals(tally *t);

#endif
