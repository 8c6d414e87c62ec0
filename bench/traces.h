/* traces.h - the traces that are measured: made by a small generator, the same in every run. */
#ifndef TRACES_H
#define TRACES_H
#include <stddef.h>
#include <stdint.h>

/* What a trace is made of. */
typedef enum { REPLIES, RANDOM_FLAGS, LONG_RUNS, SHORT_RUNS } content;

typedef struct {
    const char *name;
    content content;
    double density;     /* replies per 1,000 ticks; 0 is a quiet channel */
} scene;

enum { SCENES = 8 };
extern const scene scenes[SCENES];

/* Fills n flags and n values. The same scene, n and seed always give the same trace. */
void paint_trace(const scene *scene, uint64_t seed, uint8_t *flags, uint8_t *values, size_t n);

#endif
