/* The kernels, and floats by their bits. */
#ifndef KERNELS_H
#define KERNELS_H
#include <stdint.h>
#include <string.h>
#include "../../include/fsrs6.h"

/* a single and its pattern */
static inline float of_bits(uint32_t b) {
    float x;
    memcpy(&x, &b, 4);
    return x;
}

static inline uint32_t to_bits(float x) {
    uint32_t b;
    memcpy(&b, &x, 4);
    return b;
}
#endif
