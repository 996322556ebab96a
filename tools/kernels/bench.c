/* The kernels beside the machine's libm, in one run: nanoseconds for one call, the best of REPEATS.

   throughput: calls that do not wait for one another; latency: each argument waits for the answer before it (by
   `argument + answer * zero`, a product and a sum that both sides pay). The two sides take turns, so that what else
   the machine does falls on both alike. Arguments as the scheduler has them: exp of -8..8; ln and pow of x from 1e-4
   to 36500, spread evenly over the powers; y from -1 to 1. fma and round: x, y and z from -8..8. */
#include <math.h>
#include <stdint.h>
#include <stdio.h>
#include <time.h>
#include "kernels.h"

enum { COUNT = 4096, REPEATS = 41 };

static volatile double zero = 0, sink;

static double now(void) {
    struct timespec t;
    clock_gettime(CLOCK_MONOTONIC, &t);
    return (double)t.tv_sec * 1e9 + (double)t.tv_nsec;
}

/* one pass over the arguments, by each of the two ways; CALL reads x[i], y[i], z[i] and adds w, which is 0 */
#define PASSES(NAME, T, CALL)                                              \
    static void NAME##_through(const T *x, const T *y, const T *z) {       \
        T s = 0;                                                           \
        const T w = 0;                                                     \
        for (int i = 0; i < COUNT; i++) s += CALL;                         \
        sink = (double)s;                                                  \
        (void)y, (void)z, (void)w;                                         \
    }                                                                      \
    static void NAME##_waiting(const T *x, const T *y, const T *z) {       \
        const T none = (T)zero;                                            \
        T s = 0, w = 0;                                                    \
        for (int i = 0; i < COUNT; i++) {                                  \
            s = CALL;                                                      \
            w = s * none;                                                  \
        }                                                                  \
        sink = (double)s;                                                  \
        (void)y, (void)z;                                                  \
    }

#define PAIR1(NAME, T, OURS, THEIRS)       \
    PASSES(our_##NAME, T, OURS(x[i] + w))  \
    PASSES(its_##NAME, T, THEIRS(x[i] + w))
#define PAIR2(NAME, T, OURS, THEIRS)             \
    PASSES(our_##NAME, T, OURS(x[i] + w, y[i]))  \
    PASSES(its_##NAME, T, THEIRS(x[i] + w, y[i]))
#define PAIR3(NAME, T, OURS, THEIRS)                   \
    PASSES(our_##NAME, T, OURS(x[i] + w, y[i], z[i]))  \
    PASSES(its_##NAME, T, THEIRS(x[i] + w, y[i], z[i]))

PAIR1(exp_f32, float, fsrs_exp_f32, expf)
PAIR1(ln_f32, float, fsrs_ln_f32, logf)
PAIR2(pow_f32, float, fsrs_pow_f32, powf)
PAIR3(fma_f32, float, fsrs_fma_f32, fmaf)
PAIR1(round_f32, float, fsrs_round_f32, roundf)
PAIR1(exp_f64, double, fsrs_exp_f64, exp)
PAIR1(ln_f64, double, fsrs_ln_f64, log)
PAIR2(pow_f64, double, fsrs_pow_f64, pow)
PAIR3(fma_f64, double, fsrs_fma_f64, fma)
PAIR1(round_f64, double, fsrs_round_f64, round)

static double even[3][COUNT], tall[COUNT], unit[COUNT];
static float even_f[3][COUNT], tall_f[COUNT], unit_f[COUNT];

/* from 0 to 1, by a fixed sequence */
static double chance(void) {
    static uint64_t state = 1;
    state = state * 6364136223846793005 + 1442695040888963407;
    return (double)(state >> 11) * 0x1p-53;
}

static void fill(void) {
    for (int i = 0; i < COUNT; i++) {
        for (int k = 0; k < 3; k++) even_f[k][i] = (float)(even[k][i] = 16 * chance() - 8);
        tall_f[i] = (float)(tall[i] = exp(log(1e-4) + chance() * (log(36500) - log(1e-4))));
        unit_f[i] = (float)(unit[i] = 2 * chance() - 1);
    }
}

#define TIME(BEST, PASS, X, Y, Z)                              \
    do {                                                       \
        double from = now();                                   \
        PASS(X, Y, Z);                                         \
        double spent = (now() - from) / COUNT;                 \
        if (spent < BEST) BEST = spent;                        \
    } while (0)

#define ROW(NAME, LIBM, X, Y, Z)                                                                        \
    do {                                                                                                \
        double a = 1e9, b = 1e9, c = 1e9, d = 1e9;                                                      \
        for (int r = 0; r < REPEATS; r++) {                                                             \
            TIME(a, our_##NAME##_through, X, Y, Z);                                                     \
            TIME(b, its_##NAME##_through, X, Y, Z);                                                     \
            TIME(c, our_##NAME##_waiting, X, Y, Z);                                                     \
            TIME(d, its_##NAME##_waiting, X, Y, Z);                                                     \
        }                                                                                               \
        printf("| fsrs_%-9s | %6.1f | %6.1f | %5.2f | %6.1f | %6.1f | %5.2f | %-6s |\n", #NAME, a, b, a / b, \
               c, d, c / d, LIBM);                                                                      \
    } while (0)

int main(void) {
    fill();
    printf("nanoseconds for one call, the best of %d passes over %d arguments\n\n", REPEATS, COUNT);
    printf("|                | throughput              | latency                 |        |\n");
    printf("| kernel         |   port |   libm | ratio |   port |   libm | ratio | beside |\n");
    printf("|----------------|--------|--------|-------|--------|--------|-------|--------|\n");
    ROW(exp_f32, "expf", even_f[0], even_f[1], even_f[2]);
    ROW(ln_f32, "logf", tall_f, unit_f, unit_f);
    ROW(pow_f32, "powf", tall_f, unit_f, unit_f);
    ROW(fma_f32, "fmaf", even_f[0], even_f[1], even_f[2]);
    ROW(round_f32, "roundf", even_f[0], even_f[1], even_f[2]);
    ROW(exp_f64, "exp", even[0], even[1], even[2]);
    ROW(ln_f64, "log", tall, unit, unit);
    ROW(pow_f64, "pow", tall, unit, unit);
    ROW(fma_f64, "fma", even[0], even[1], even[2]);
    ROW(round_f64, "round", even[0], even[1], even[2]);
    return 0;
}
