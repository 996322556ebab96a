/* All 2^32 singles through fsrs_exp_f32, fsrs_expm1_f32 and fsrs_ln_f32, by document 01's rules and K1's.

   sweep [KERNEL [STEP [THREADS]]]: KERNEL, as in expm1, or all of them; every STEP-th pattern (default 1), by THREADS
   threads (default 2).

   The reference is the machine's exp, expm1 and log in double. Its own error counts against the kernel: an answer
   passes only within the allowed distance LESS what the reference may be wrong by, which is
     exp:   2^-51 E                 libm within an ulp, 2^-52; E and e^A within 2^-57 E, since 2^64 ln 2 - N < 1 and |k| < 128
     expm1: 2^-51 |E - 1| + 2^-57   likewise, and E is at most 1 + |E - 1|
     ln:    2^-51 |L| + 2^-56       libm within an ulp; L and ln within 150 / 2^64 < 2^-56, and 2^-82 of the series
   The subtraction of two doubles this near is exact, and the parts printed are by the allowed distance itself.
   The digest is a sum over all patterns of a mix of the pattern and the answer, any NaN as 7fc00000: two libraries
   with the same digest gave, but for an accident of 2^-64, the same bits everywhere. */
#include <inttypes.h>
#include <math.h>
#include <pthread.h>
#include <stdatomic.h>
#include <stdio.h>
#include <stdlib.h>
#include <string.h>
#include <time.h>
#include "kernels.h"

enum { REFUSED, EXACT, NEAR, SUBNORMAL, ABOVE, BELOW, BETWEEN, RULES };

struct tally {
    uint64_t asked[RULES], bad[RULES], digest;
    double worst;
    uint32_t worst_at, bad_at;
};

static void note(struct tally *t, int rule, int ok, uint32_t b) {
    t->asked[rule]++;
    if (!ok) {
        t->bad[rule]++;
        t->bad_at = b;
    }
}

/* allowed: document 01's distance; slack: what the reference may be wrong by */
static void note_near(struct tally *t, uint32_t b, float y, double reference, double allowed, double slack) {
    double error = fabs((double)y - reference);
    int ok = error <= allowed - slack;
    note(t, NEAR, ok, b);
    if ((b & 0x7fffffff) < 0x00800000) note(t, SUBNORMAL, ok, b);
    if (!(error / allowed <= t->worst)) {
        t->worst = error / allowed;
        t->worst_at = b;
    }
}

static float one_exp(struct tally *t, uint32_t b) {
    float x = of_bits(b), y = fsrs_exp_f32(x);
    int finite = isfinite(x) != 0;
    note(t, REFUSED, finite != (isnan(y) != 0), b);
    if (!finite) return y;
    if (x == 0) note(t, EXACT, to_bits(y) == 0x3f800000, b);
    if (fabsf(x) <= 86) {
        double e = exp((double)x);
        note_near(t, b, y, e, 0x1p-23 * e, 0x1p-51 * e);
    } else if (x >= 89)
        note(t, ABOVE, to_bits(y) == 0x7f800000, b);
    else if (x <= -89)
        note(t, BELOW, to_bits(y) == 0, b);
    else
        note(t, BETWEEN, !isnan(y) && !signbit(y), b);
    return y;
}

static float one_expm1(struct tally *t, uint32_t b) {
    float x = of_bits(b), y = fsrs_expm1_f32(x);
    int finite = isfinite(x) != 0;
    note(t, REFUSED, finite != (isnan(y) != 0), b);
    if (!finite) return y;
    if (x == 0) note(t, EXACT, to_bits(y) == b, b);
    if (fabsf(x) <= 86) {
        double m = expm1((double)x), size = fabs(m);
        note_near(t, b, y, m, 0x1p-23 * size + 0x1p-48, 0x1p-51 * size + 0x1p-57);
    } else if (x >= 89)
        note(t, ABOVE, to_bits(y) == 0x7f800000, b);
    else if (x <= -89)
        note(t, BELOW, to_bits(y) == 0xbf800000, b);
    else
        note(t, BETWEEN, y > -INFINITY, b);
    return y;
}

static float one_ln(struct tally *t, uint32_t b) {
    float x = of_bits(b), y = fsrs_ln_f32(x);
    int inside = x > 0 && isfinite(x);
    note(t, REFUSED, inside != (isnan(y) != 0), b);
    if (!inside) return y;
    if (x == 1) note(t, EXACT, to_bits(y) == 0, b);
    double l = log((double)x), size = fabs(l);
    note_near(t, b, y, l, 0x1p-23 * size + 0x1p-48, 0x1p-51 * size + 0x1p-56);
    return y;
}

static uint64_t mix(uint64_t z) {
    z = (z ^ z >> 30) * 0xbf58476d1ce4e5b9;
    z = (z ^ z >> 27) * 0x94d049bb133111eb;
    return z ^ z >> 31;
}

typedef float kernel(struct tally *, uint32_t);
static kernel *now;
static uint64_t step = 1;
static _Atomic uint64_t next;
#define CHUNK (UINT64_C(1) << 20)
#define ALL (UINT64_C(1) << 32)

static void *work(void *tally) {
    struct tally *t = tally;
    for (uint64_t from; (from = atomic_fetch_add(&next, CHUNK * step)) < ALL;)
        for (uint64_t b = from; b < from + CHUNK * step && b < ALL; b += step) {
            float y = now(t, (uint32_t)b);
            t->digest += mix(b << 32 | (isnan(y) ? 0x7fc00000 : to_bits(y)));
        }
    return NULL;
}

static void join(struct tally *sum, const struct tally *t) {
    for (int r = 0; r < RULES; r++) {
        sum->asked[r] += t->asked[r];
        sum->bad[r] += t->bad[r];
        if (t->bad[r]) sum->bad_at = t->bad_at;
    }
    sum->digest += t->digest;
    if (t->worst > sum->worst) {
        sum->worst = t->worst;
        sum->worst_at = t->worst_at;
    }
}

static const struct sweep {
    const char *name;
    kernel *kernel;
    const char *rules[RULES];
} sweeps[] = {
    {"exp", one_exp, {
        [REFUSED] = "refused exactly where x is not finite", [EXACT] = "exp(+-0) = 1",
        [NEAR] = "|A| <= 86: within 2^-23 E",                [SUBNORMAL] = "    of these zero and subnormal x",
        [ABOVE] = "A >= 89: +infinity",                      [BELOW] = "A <= -89: +0",
        [BETWEEN] = "in between: +0, a number or +infinity",
    }},
    {"expm1", one_expm1, {
        [REFUSED] = "refused exactly where x is not finite", [EXACT] = "expm1(+-0) is the zero given",
        [NEAR] = "|A| <= 86: within 2^-23 |E - 1| + 2^-48",  [SUBNORMAL] = "    of these zero and subnormal x",
        [ABOVE] = "A >= 89: +infinity",                      [BELOW] = "A <= -89: -1",
        [BETWEEN] = "in between: a number or +infinity",
    }},
    {"ln", one_ln, {
        [REFUSED] = "refused exactly where x is not positive, finite", [EXACT] = "ln 1 = +0",
        [NEAR] = "within 2^-23 |L| + 2^-48",                           [SUBNORMAL] = "    of these subnormal x",
    }},
};

static uint64_t run(const struct sweep *s, int threads) {
    struct tally sum = {0}, *each = calloc((size_t)threads, sizeof *each);
    pthread_t *ids = calloc((size_t)threads, sizeof *ids);
    struct timespec a, z;
    uint64_t bad = 0;
    if (!each || !ids) exit(2);
    now = s->kernel;
    atomic_store(&next, 0);
    clock_gettime(CLOCK_MONOTONIC, &a);
    for (int i = 0; i < threads; i++)
        if (pthread_create(&ids[i], NULL, work, &each[i])) exit(2);
    for (int i = 0; i < threads; i++) {
        pthread_join(ids[i], NULL);
        join(&sum, &each[i]);
    }
    clock_gettime(CLOCK_MONOTONIC, &z);
    printf("fsrs_%s_f32: %" PRIu64 " patterns, digest %016" PRIx64 ", %.0f s\n", s->name, (ALL - 1) / step + 1,
           sum.digest, (double)(z.tv_sec - a.tv_sec) + 1e-9 * (double)(z.tv_nsec - a.tv_nsec));
    for (int r = 0; r < RULES; r++) {
        if (!s->rules[r]) continue;
        printf("    %-48s %10" PRIu64 " asked, %" PRIu64 " violated", s->rules[r], sum.asked[r], sum.bad[r]);
        if (r == NEAR) printf(", worst %.6f of the allowed, at %08" PRIx32, sum.worst, sum.worst_at);
        printf("\n");
        bad += sum.bad[r];
    }
    if (bad) printf("    one that is violated: at %08" PRIx32 "\n", sum.bad_at);
    fflush(stdout);
    free(each);
    free(ids);
    return bad;
}

int main(int argc, char **argv) {
    const char *only = argc > 1 ? argv[1] : "all";
    step = argc > 2 ? strtoull(argv[2], NULL, 10) : 1;
    int threads = argc > 3 ? atoi(argv[3]) : 2, ran = 0;
    uint64_t bad = 0;
    for (size_t i = 0; i < sizeof sweeps / sizeof *sweeps && step > 0 && threads > 0; i++) {
        if (strcmp(only, "all") && strcmp(only, sweeps[i].name)) continue;
        bad += run(&sweeps[i], threads);
        ran++;
    }
    if (!ran) {
        fprintf(stderr, "usage: sweep [exp | expm1 | ln | all [STEP [THREADS]]]\n");
        return 2;
    }
    printf("%" PRIu64 " violations\n", bad);
    return bad != 0;
}
