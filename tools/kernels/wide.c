/* Pseudo-random points against a wider arithmetic, by document 01's rules: fsrs_pow_f32 against the machine's pow in double, the doubles
   against exp, log and pow in quad (113 digits).

   wide [SINGLES] [DOUBLES]: how many points of pow_f32 (default 10^8) and of each double kernel (default 10^7).

   What the reference may be wrong by counts against the kernel: 2^-50 E for pow in double; in quad it is E and e^A that differ, since
   2^64 ln 2 - N < 1: by k / 2^64 < 2^-53 of E up to |A| = 700, and L and ln by 2^-62 |L|. The parts printed are by the allowed distance
   itself, in double K4's: 2^-50 E, 2^-52 |L| + 2^-60. */
#define __STDC_WANT_IEC_60559_TYPES_EXT__ 1
#include <inttypes.h>
#include <math.h>
#include <stdint.h>
#include <stdio.h>
#include <stdlib.h>
#include <string.h>
#include "kernels.h"

static uint64_t state = UINT64_C(88172645463325252);

static uint64_t word(void) {
    state ^= state << 13;
    state ^= state >> 7;
    return state ^= state << 17;
}

static double unit(void) { return (double)(word() >> 11) * 0x1p-53; }
static double both(double to) { return (2 * unit() - 1) * to; }

static double of_word(uint64_t b) {
    double x;
    memcpy(&x, &b, sizeof x);
    return x;
}

struct rule {
    uint64_t asked, bad;
    double worst, x, y;
};

static struct rule near, far, one;

/* error and slack as parts of the allowed */
static void note(struct rule *r, double error, double slack, double x, double y) {
    r->asked++;
    if (!(error <= 1 - slack)) r->bad++;
    if (!(error <= r->worst)) {
        r->worst = error;
        r->x = x;
        r->y = y;
    }
}

static void hold(struct rule *r, int ok, double x, double y) { note(r, ok ? 0 : 2, 0, x, y); }

static uint64_t total;

static void show(const char *name) {
    struct {
        const char *what;
        struct rule *rule;
    } rows[] = {{"within its distance", &near}, {"past the ends", &far}, {"x >= 1, y <= 0: never above 1", &one}};
    printf("%s\n", name);
    for (int i = 0; i < 3; i++) {
        struct rule *r = rows[i].rule;
        if (!r->asked) continue;
        printf("    %-32s %10" PRIu64 " asked, %" PRIu64 " violated", rows[i].what, r->asked, r->bad);
        if (r->worst > 0) printf(", worst %.6f of the allowed, at %a %a", r->worst, r->x, r->y);
        printf("\n");
        total += r->bad;
        *r = (struct rule){0};
    }
    fflush(stdout);
}

static void powers(uint64_t n) {
    for (uint64_t i = 0; i < n; i++) {
        uint32_t b = (uint32_t)(word() % 0x7f800000), e = (uint32_t)(word() % 0x41800001);
        if (i % 4 == 1) b = 0x38d1b717 + (uint32_t)(word() % 0xe3cdce9); /* from 0.0001 to 36500 */
        if (i % 4 == 2) b = 0x3f700000 + (uint32_t)(word() % 0x200000);  /* around 1 */
        if (i % 4 == 3) b &= ~((UINT32_C(1) << word() % 23) - 1);        /* few digits */
        float x = of_bits(b), y = of_bits(e | (uint32_t)(word() & 0x80000000));
        if (i % 3) y = (float)both(i % 3 == 1 ? 16 : 1);
        if (!(x > 0)) continue;
        float z = fsrs_pow_f32(x, y);
        double a = (double)y * log((double)x);
        if (x >= 1 && y <= 0) hold(&one, z <= 1, x, y);
        if (a >= 89) hold(&far, z == INFINITY, x, y);
        else if (a <= -89) hold(&far, to_bits(z) == 0, x, y);
        else if (fabs(a) <= 86) {
            double p = pow((double)x, (double)y);
            note(&near, fabs((double)z / p - 1) * 0x1p23, 0x1p-27, x, y);
        }
    }
    show("fsrs_pow_f32");
}

static void near_double(double v, _Float128 e, double x, double y) {
    note(&near, (double)fabsf128((v - e) / e) * 0x1p50, 0x1p-3, x, y);
}

static void exps(uint64_t n) {
    for (uint64_t i = 0; i < n; i++) {
        double x = i % 4 == 0 ? both(700) : i % 4 == 1 ? both(32) : i % 4 == 2 ? both(2) : ldexp(both(1), -(int)(word() % 60));
        near_double(fsrs_exp_f64(x), expf128((_Float128)x), x, 0);
    }
    show("fsrs_exp_f64");
}

static double base(uint64_t i) {
    switch (i % 5) {
    case 0: return of_word(1 + word() % UINT64_C(0x7fefffffffffffff));
    case 1: return exp(both(12));
    case 2: return 1 + both(ldexp(1, -(int)(word() % 52)));
    case 3: return 0.5 + 1.5 * unit();
    default: return 1 + both(0.006);
    }
}

static void lns(uint64_t n) {
    for (uint64_t i = 0; i < n; i++) {
        double x = base(i);
        if (!(x > 0)) continue;
        _Float128 l = logf128((_Float128)x), size = fabsf128(l), error = fabsf128(fsrs_ln_f64(x) - l);
        note(&near, (double)(error / (size * 0x1p-52 + 0x1p-60)), 0x1p-10, x, 0);
    }
    show("fsrs_ln_f64");
}

static void pows(uint64_t n) {
    for (uint64_t i = 0; i < n; i++) {
        double x = base(i), y = both(16);
        if (i / 5 % 4 == 1) y = both(1);
        if (i / 5 % 4 == 2) y = ldexp(both(1), 4 - (int)(word() % 70));
        if (i / 5 % 4 == 3) y = (word() & 1 ? -1 : 1) * (16 - 0.01 * unit());
        if (!(x > 0)) continue;
        double v = fsrs_pow_f64(x, y);
        _Float128 a = (_Float128)y * logf128((_Float128)x);
        if (x >= 1 && y <= 0) hold(&one, v <= 1, x, y);
        if (a >= 710.0001) hold(&far, v == INFINITY, x, y);
        else if (a <= -710.0001) hold(&far, v == 0 && !signbit(v), x, y);
        else if (fabsf128(a) <= 699.9999) near_double(v, expf128(a), x, y);
    }
    show("fsrs_pow_f64");
}

int main(int argc, char **argv) {
    uint64_t singles = argc > 1 ? strtoull(argv[1], NULL, 10) : 100000000;
    uint64_t doubles = argc > 2 ? strtoull(argv[2], NULL, 10) : 10000000;
    powers(singles);
    exps(doubles);
    lns(doubles);
    pows(doubles);
    printf("%" PRIu64 " violations\n", total);
    return total != 0;
}
