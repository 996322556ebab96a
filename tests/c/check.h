/* What the tests of the C functions share: floats by their bits, and the count of what held. */
#ifndef CHECK_H
#define CHECK_H

#include <inttypes.h>
#include <math.h>
#include <stdarg.h>
#include <stdio.h>
#include <string.h>

static unsigned long passed, failed;

static inline void expect(int holds, const char *format, ...) {
    if (holds) {
        passed++;
        return;
    }
    failed++;
    va_list words;
    va_start(words, format);
    vprintf(format, words);
    va_end(words);
    putchar('\n');
}

static inline int finish(void) {
    printf("%lu passed, %lu failed\n", passed, failed);
    return failed != 0;
}

static inline float single_of(uint64_t bits) {
    uint32_t word = (uint32_t)bits;
    float x;
    memcpy(&x, &word, sizeof x);
    return x;
}

static inline double double_of(uint64_t bits) {
    double x;
    memcpy(&x, &bits, sizeof x);
    return x;
}

/* A NaN's payload is nobody's promise: every NaN has one pattern here. */
static inline uint64_t single_bits(float x) {
    uint32_t word = 0x7fc00000;
    if (!isnan(x)) {
        memcpy(&word, &x, sizeof word);
    }
    return word;
}

static inline uint64_t double_bits(double x) {
    uint64_t word = 0x7ff8000000000000;
    if (!isnan(x)) {
        memcpy(&word, &x, sizeof word);
    }
    return word;
}

static inline void expect_single(const char *name, float is, float want) {
    expect(single_bits(is) == single_bits(want), "%s: %08" PRIx64 ", not %08" PRIx64, name, single_bits(is),
           single_bits(want));
}

static inline void expect_double(const char *name, double is, double want) {
    expect(double_bits(is) == double_bits(want), "%s: %016" PRIx64 ", not %016" PRIx64, name, double_bits(is),
           double_bits(want));
}

#endif
