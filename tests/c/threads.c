/* threads CARDS PREFIXES (two batch files): every function on several threads at once, over one archive. A round calls each
 * function once, and every thread runs all rounds, from a place of its own on: their bits are those of one thread alone. */
#include "../../include/fsrs6.h"
#include "check.h"
#include <pthread.h>

enum { THREADS = 4, ROUNDS = 4000, ROWS = 12, COLUMNS = 4, CELLS = ROWS * COLUMNS, FILES = 2, FILE_ROOM = 4096 };

/* Read by all threads, and written by none. */
static float defaults[FSRS_WEIGHTS];
static uint8_t files[FILES][FILE_ROOM];
static size_t file_lens[FILES];
static uint64_t wanted[ROUNDS];

struct round {
    uint64_t seed, digest, refused;
    float w[FSRS_WEIGHTS], s, d, day;
    uint32_t rating;
};

/* ---- numbers from the seed, and the digest of what was answered */

static uint32_t any(struct round *x) {
    x->seed = x->seed * 6364136223846793005 + 1442695040888963407;
    return (uint32_t)(x->seed >> 32);
}

static float between(struct round *x, float from, float to) {
    return from + (to - from) * ((float)(any(x) >> 8) * 0x1p-24f);
}

static void see(struct round *x, uint64_t bits) {
    uint64_t m = (x->digest ^ bits) * 0x100000001b3;
    x->digest = m ^ m >> 32;
}

static void see_singles(struct round *x, const float *of, size_t n) {
    for (size_t i = 0; i < n; i++) {
        see(x, single_bits(of[i]));
    }
}

static void see_doubles(struct round *x, const double *of, size_t n) {
    for (size_t i = 0; i < n; i++) {
        see(x, double_bits(of[i]));
    }
}

static void accept(struct round *x, uint32_t refusal) {
    x->refused += refusal != FSRS_ACCEPTED;
}

/* ---- the functions */

static void kernels(struct round *x) {
    float a = between(x, -80, 80), b = between(x, 0.001f, 1000), y = between(x, -16, 16);
    const float singles[] = {
        fsrs_exp_f32(a),    fsrs_expm1_f32(a),     fsrs_ln_f32(b),
        fsrs_pow_f32(b, y), fsrs_fma_f32(a, b, y), fsrs_round_f32(a),
    };
    const double doubles[] = {
        fsrs_exp_f64(a), fsrs_ln_f64(b), fsrs_pow_f64(b, y), fsrs_fma_f64(a, b, y), fsrs_round_f64(a),
    };
    see_singles(x, singles, sizeof singles / sizeof *singles);
    see_doubles(x, doubles, sizeof doubles / sizeof *doubles);
}

#define W x->w, FSRS_WEIGHTS

static void formulas(struct round *x) {
    float a[16], filled[FSRS_WEIGHTS], r = between(x, 0, 1);
    float ease = between(x, 1.3f, 3), interval = between(x, 1, 100), retention = between(x, 0.6f, 0.95f);
    accept(x, fsrs_check_and_fill_parameters(W, filled));
    accept(x, fsrs_power_forgetting_curve(W, x->day, x->s, &a[0]));
    accept(x, fsrs_next_interval(W, x->s, r, &a[1]));
    accept(x, fsrs_init_difficulty(W, x->rating, &a[2]));
    accept(x, fsrs_mean_reversion(W, x->s, x->d, &a[3]));
    accept(x, fsrs_next_difficulty(W, x->d, x->rating, &a[4]));
    accept(x, fsrs_stability_after_success(W, x->s, r, x->d, x->rating, &a[5]));
    accept(x, fsrs_stability_after_failure(W, x->s, r, x->d, &a[6]));
    accept(x, fsrs_stability_short_term(W, x->s, x->rating, &a[7]));
    accept(x, fsrs_first_state(W, x->rating, &a[8], &a[9]));
    accept(x, fsrs_next_state(W, x->s, x->d, x->day, x->rating, &a[10], &a[11]));
    uint32_t first_day = any(x) % 1000, day;
    accept(x, fsrs_next_state_on(W, x->s, x->d, first_day, first_day + any(x) % 400, x->rating, &a[14], &a[15], &day));
    accept(x, fsrs_memory_state_from_sm2(W, ease, interval, retention, &a[12], &a[13]));
    uint32_t verdict;
    accept(x, fsrs_check_row(W, x->s, x->d, x->day, x->rating, retention, (uint32_t)single_bits(a[10]),
                             (uint32_t)single_bits(a[11]), any(x), &verdict));
    see_singles(x, filled, FSRS_WEIGHTS);
    see(x, day);
    see(x, verdict);
    see_singles(x, a, sizeof a / sizeof *a);
}

static void steps(struct round *x) {
    float next[2], record[FSRS_RECORD], rating = (float)x->rating;
    double gw[FSRS_WEIGHTS] = {0}, before[2];
    size_t row = any(x) % 2;
    accept(x, fsrs_training_step(W, x->s, x->d, x->day, rating, row, &next[0], &next[1], record));
    accept(x, fsrs_training_step_backward(W, x->s, x->d, x->day, rating, row, next[0], next[1], 0.5, gw, FSRS_WEIGHTS,
                                          &before[0], &before[1]));
    fsrs_reason reason = fsrs_explain_step(W, x->s, x->d, x->day, rating, row);
    accept(x, reason.refusal);
    see(x, reason.reason);
    see(x, reason.stability_held);
    see(x, reason.difficulty_held);
    see_singles(x, next, 2);
    see_singles(x, record, FSRS_RECORD);
    see_doubles(x, before, 2);
    see_doubles(x, gw, FSRS_WEIGHTS);
}

/* Of a call with a bad cell, which is refused. */
static void see_fault(struct round *x, fsrs_fault f) {
    see(x, f.refusal);
    see(x, f.column);
    see(x, f.row);
}

static void losses(struct round *x) {
    float days[CELLS], ratings[CELLS], labels[CELLS], weights[CELLS], records[FSRS_RECORD * ROWS] = {0};
    double gw[FSRS_WEIGHTS] = {0}, step_grads[ROWS] = {0}, loss[8];
    uint32_t lengths[COLUMNS];
    bool end = any(x) % 2;
    for (int i = 0; i < CELLS; i++) {
        days[i] = (float)(any(x) % 20);
        ratings[i] = (float)(i < COLUMNS ? 1 + any(x) % 4 : any(x) % 5);
        labels[i] = (float)(any(x) % 2);
        weights[i] = between(x, 0, 2);
    }
    for (int i = 0; i < COLUMNS; i++) {
        lengths[i] = 1 + any(x) % ROWS;
    }
#define TABLES W, days, CELLS, ratings, CELLS, ROWS, COLUMNS, lengths, COLUMNS
#define SCORED labels, CELLS, weights, CELLS
#define LENT gw, FSRS_WEIGHTS, records, FSRS_RECORD *ROWS
    accept(x, fsrs_batch_loss(TABLES, days, CELLS, SCORED, &loss[0]));
    accept(x, fsrs_batch_loss_and_grad(TABLES, days, CELLS, SCORED, LENT, &loss[1]));
    accept(x, fsrs_card_loss(TABLES, SCORED, &loss[2]));
    accept(x, fsrs_card_loss_and_grad(TABLES, SCORED, LENT, step_grads, ROWS, &loss[3]));
    accept(x, fsrs_batch_loss_in(end, TABLES, days, CELLS, SCORED, &loss[4]));
    accept(x, fsrs_batch_loss_and_grad_in(end, TABLES, days, CELLS, SCORED, LENT, &loss[5]));
    accept(x, fsrs_card_loss_in(end, TABLES, SCORED, &loss[6]));
    accept(x, fsrs_card_loss_and_grad_in(end, TABLES, SCORED, LENT, step_grads, ROWS, &loss[7]));
    ratings[any(x) % CELLS] = 7;
    see_fault(x, fsrs_batch_loss_fault(end, TABLES, days, CELLS, SCORED));
    see_fault(x, fsrs_batch_loss_and_grad_fault(end, TABLES, days, CELLS, SCORED, FSRS_WEIGHTS, FSRS_RECORD * ROWS));
    see_fault(x, fsrs_card_loss_fault(end, TABLES, SCORED));
    see_fault(x, fsrs_card_loss_and_grad_fault(end, TABLES, SCORED, FSRS_WEIGHTS, FSRS_RECORD * ROWS, ROWS));
    see_doubles(x, loss, 8);
    see_doubles(x, gw, FSRS_WEIGHTS);
    see_doubles(x, step_grads, ROWS);
    see_singles(x, records, FSRS_RECORD * ROWS);
}

static void penalty(struct round *x) {
    float spreads[FSRS_WEIGHTS], slots[FSRS_WEIGHTS];
    double penalty;
    for (int i = 0; i < FSRS_WEIGHTS; i++) {
        spreads[i] = between(x, 0.1f, 1);
    }
    accept(x, fsrs_l2_penalty(W, defaults, FSRS_WEIGHTS, any(x) % 512, 1 + any(x) % 10000, between(x, -1, 1), spreads,
                              FSRS_WEIGHTS, slots, FSRS_WEIGHTS, &penalty));
    see_doubles(x, &penalty, 1);
    see_singles(x, slots, FSRS_WEIGHTS);
}

static void recalls(struct round *x) {
    double days[ROWS], shares[ROWS], counts[ROWS];
    float stability;
    size_t rows = any(x) % (ROWS + 1);
    for (size_t i = 0; i < rows; i++) {
        days[i] = 1 + any(x) % 30;
        shares[i] = between(x, 0, 1);
        counts[i] = 1 + any(x) % 50;
    }
    accept(x, fsrs_initial_stability(days, rows, shares, rows, counts, rows, x->s, &stability));
    see_singles(x, &stability, 1);
}

static void file(struct round *x) {
    uint32_t i = any(x) % FILES;
    double gw[FSRS_WEIGHTS], loss;
    for (int k = 0; k < FSRS_WEIGHTS; k++) {
        gw[k] = between(x, -1, 1);
    }
    accept(x, fsrs_batch_file(files[i], file_lens[i], gw, FSRS_WEIGHTS, &loss));
    accept(x, fsrs_batch_file_fault(files[i], file_lens[i]).refusal);
    see_doubles(x, &loss, 1);
    see_doubles(x, gw, FSRS_WEIGHTS);
}

static struct round run_round(uint64_t number) {
    struct round x = {.seed = number, .digest = 0xcbf29ce484222325};
    for (int i = 0; i < FSRS_WEIGHTS; i++) {
        x.w[i] = defaults[i] * between(&x, 0.9f, 1.1f);
    }
    x.s = between(&x, 0.01f, 100);
    x.d = between(&x, 1, 10);
    x.day = (float)(any(&x) % 30);
    x.rating = 1 + any(&x) % 4;
    kernels(&x);
    formulas(&x);
    steps(&x);
    losses(&x);
    penalty(&x);
    recalls(&x);
    file(&x);
    return x;
}

/* ---- the threads */

struct thread {
    pthread_t id;
    int first, other;
};

static void *run_all(void *of) {
    struct thread *t = of;
    for (int i = 0; i < ROUNDS; i++) {
        int number = (t->first + i) % ROUNDS;
        t->other += run_round((uint64_t)number).digest != wanted[number];
    }
    return NULL;
}

static void take_file(int i, const char *name) {
    FILE *f = fopen(name, "rb");
    file_lens[i] = f ? fread(files[i], 1, FILE_ROOM, f) : 0;
    expect(file_lens[i] > 0, "cannot read %s", name);
    if (f) {
        fclose(f);
    }
}

int main(int argc, char **argv) {
    static struct thread threads[THREADS];
    float none = 0;
    uint64_t refused = 0;
    if (argc != 1 + FILES) {
        fputs("usage: threads CARDS PREFIXES\n", stderr);
        return 2;
    }
    take_file(0, argv[1]);
    take_file(1, argv[2]);
    refused += fsrs_check_and_fill_parameters(&none, 0, defaults);
    for (int i = 0; i < ROUNDS; i++) {
        struct round x = run_round((uint64_t)i);
        wanted[i] = x.digest;
        refused += x.refused;
    }
    expect(refused == 0, "%" PRIu64 " calls were refused", refused);
    expect(wanted[0] != wanted[1], "all rounds are alike");
    for (int i = 0; i < THREADS; i++) {
        threads[i].first = i * (ROUNDS / THREADS);
        expect(pthread_create(&threads[i].id, NULL, run_all, &threads[i]) == 0, "thread %d did not start", i);
    }
    for (int i = 0; i < THREADS; i++) {
        expect(pthread_join(threads[i].id, NULL) == 0, "thread %d did not end", i);
        expect(threads[i].other == 0, "thread %d: %d rounds with other bits", i, threads[i].other);
    }
    return finish();
}
