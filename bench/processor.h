/* processor.h - the fields of the proved processor, as crates/sweep and crates/rules declare them, in C. Only for its
   size: bench/run looks in the machine code of the proved program for copies of just this length. */
#ifndef PROCESSOR_H
#define PROCESSOR_H
#include <stdint.h>

typedef struct { uint32_t tag; double level; } estimate;
typedef struct { estimate estimate; uint16_t n, s; } reference;
typedef struct { uint32_t f1; uint8_t marks[4]; uint16_t settled, code, unsure; reference reference; } reply;
typedef struct { uint32_t tag; reply reply; } place;
typedef struct { place places[4]; uint16_t counts[6]; } machine;

typedef struct {
    uint8_t mode;
    uint16_t azimuth;
    uint32_t taken;
    uint64_t front[20];
    uint8_t recent[256];
    machine machine;
} processor;

#endif
