/* Lines in, lines out: "fsrs_pow_f64 4000000000000000 bff0000000000000" is answered by the bits of the result.
   exact.py asks it, and knows what the answer has to be. */
#include <inttypes.h>
#include <stdio.h>
#include <string.h>
#include "kernels.h"

static float single(uint64_t b) {
    return of_bits((uint32_t)b);
}

static double twice(uint64_t b) {
    double x;
    memcpy(&x, &b, 8);
    return x;
}

static void say_single(float x) {
    printf("%08" PRIx32 "\n", to_bits(x));
}

static void say_double(double x) {
    uint64_t w;
    memcpy(&w, &x, 8);
    printf("%016" PRIx64 "\n", w);
}

static int answer(const char *name, const uint64_t b[3]) {
#define F32(NAME, ...) if (!strcmp(name, #NAME)) { say_single(NAME(__VA_ARGS__)); return 1; }
#define F64(NAME, ...) if (!strcmp(name, #NAME)) { say_double(NAME(__VA_ARGS__)); return 1; }
    F32(fsrs_exp_f32, single(b[0]))
    F32(fsrs_expm1_f32, single(b[0]))
    F32(fsrs_ln_f32, single(b[0]))
    F32(fsrs_pow_f32, single(b[0]), single(b[1]))
    F32(fsrs_fma_f32, single(b[0]), single(b[1]), single(b[2]))
    F32(fsrs_round_f32, single(b[0]))
    F64(fsrs_exp_f64, twice(b[0]))
    F64(fsrs_ln_f64, twice(b[0]))
    F64(fsrs_pow_f64, twice(b[0]), twice(b[1]))
    F64(fsrs_fma_f64, twice(b[0]), twice(b[1]), twice(b[2]))
    F64(fsrs_round_f64, twice(b[0]))
    return 0;
}

int main(void) {
    char line[128], name[32];
    while (fgets(line, sizeof line, stdin)) {
        uint64_t b[3] = {0, 0, 0};
        if (sscanf(line, "%31s %" SCNx64 " %" SCNx64 " %" SCNx64, name, &b[0], &b[1], &b[2]) < 2 || !answer(name, b)) {
            fprintf(stderr, "host: cannot answer: %s", line);
            return 2;
        }
    }
    return 0;
}
