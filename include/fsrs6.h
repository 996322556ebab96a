/* The scalar core of FSRS-6: kernels, formulas, the training step, the two losses, a pull toward the old weights and starting
 * stabilities, each proved to be the definition that its crate's specs/ hold. `./lib` writes the archive,
 * target/lib/libfsrs6.a, for x86-64.
 *
 * Every function but the kernels returns the number of its refusal, 0 where the call was accepted, and writes its answers
 * through the places lent to it; those that explain return a struct, whose first number it is, and write nothing. A refused
 * call writes nothing. A slice is a pointer and the number of its entries.
 *
 * A card begins with its first review, whose rating alone gives its state: fsrs_first_state. Every later review is a call of
 * fsrs_next_state_on, which is told its day and the day on which the card was last seen, or of fsrs_next_state, which is told
 * the days between. After each fsrs_next_interval tells when to show the card again. examples/first.c does this.
 *
 * What C cannot check is the caller's: a pointer is not NULL and is aligned, also where the number of entries is 0; it has
 * as many entries as said; what a call writes overlaps nothing else that was lent to it; and the thread's floats are as C
 * starts them, the rounding mode to nearest and subnormals not flushed (a program linked with -ffast-math may flush them).
 * Everything else is checked here, and any bits may stand in any number.
 *
 * No function keeps anything from one call to the next. So any number of calls may run at once, on any threads, as long as
 * none writes what another reads or writes.
 */
#ifndef FSRS6_H
#define FSRS6_H

#include <stdbool.h>
#include <stddef.h>
#include <stdint.h>

#ifdef __cplusplus
extern "C" {
#endif

/* Before the first release: names and numbers may still change. */
#define FSRS6_VERSION_MAJOR 0
#define FSRS6_VERSION_MINOR 1
#define FSRS6_VERSION_PATCH 0
#define FSRS6_VERSION "0.1.0"

/* The numbers of the refusals. */
enum {
    FSRS_ACCEPTED = 0,
    FSRS_WEIGHT_COUNT = 1,   /* not 21 weights */
    FSRS_WEIGHT_BOX = 2,     /* a weight outside the box; in filling, also an entry that is not finite */
    FSRS_SIZES = 3,          /* rows or columns over the limit, or an input slice too short; of first recalls, not as long */
    FSRS_ROOM = 4,           /* too few records, or step gradients, for the longest column */
    FSRS_SLOT_COUNT = 5,     /* not 21 gradient slots */
    FSRS_RATING = 6,         /* a rating that is read is not 0, 1, 2, 3 or 4 */
    FSRS_DAY = 7,            /* a day that is read is outside -100000..100000; of a first recall, not above 0 as well */
    FSRS_REVIEW = 8,         /* a review weight or label that is read is out of range; a share or count of first recalls */
    FSRS_EMPTY_PREFIX = 9,   /* a prefix of length 0 */
    FSRS_KERNEL = 10,        /* a kernel's argument: shown as a NaN */
    FSRS_FILE = 11,          /* a malformed batch file */
    FSRS_FILLING_COUNT = 12, /* a weight set to fill has not 0, 17, 19 or 21 entries */
    FSRS_SCALAR = 13,        /* an argument of a formula, of a single step or of the pull; a default stability */
    FSRS_IMPORT = 14,        /* a card from SM-2 gets no finite state, as by a retention not inside 0..1 */
    FSRS_EARLIER = 15        /* a review on an earlier day than the one on which the card was last seen */
};

/* A refusal in words, for a log or a message. */
static inline const char *fsrs_refusal_text(uint32_t number) {
    static const char *const texts[] = {
        "accepted",
        "not 21 weights",
        "a weight is outside its range",
        "rows or columns are over the limit, or an input slice is too short",
        "too few records or step gradients for the longest column",
        "not 21 gradient slots",
        "a rating is not 0, 1, 2, 3 or 4",
        "a day is out of range",
        "a review weight, a label, a share or a count is out of range",
        "a prefix has the length 0",
        "an argument is outside the kernel's domain",
        "the batch file is malformed",
        "a weight set to fill has not 0, 17, 19 or 21 entries",
        "an argument is not finite or out of range",
        "a card from SM-2 gets no finite stability or difficulty",
        "the day is earlier than the one on which the card was last seen",
    };
    return number < sizeof texts / sizeof *texts ? texts[number] : "no refusal has this number";
}

enum {
    FSRS_WEIGHTS = 21,       /* weights, and gradient slots */
    FSRS_RECORD = 10,        /* singles in the record of a step */
    FSRS_MAX_ROWS = 2048,
    FSRS_MAX_COLUMNS = 512,
    FSRS_FILE_BYTES = 65536, /* the longest batch file */
    FSRS_FILE_ROWS = 512,
    FSRS_MAX_DAY = 100000,   /* the last day number */
    FSRS_MAX_RECALLS = 4096  /* rows of fsrs_initial_stability */
};
/* The most that a batch size or a total of fsrs_l2_penalty is: 2^31, which no enum of C need hold. */
#define FSRS_MAX_SIZE UINT64_C(2147483648)

/* ---- ranges. Both ends belong to a range, a decimal is the single nearest to it, and a zero of either sign is 0.
 *
 * The box, in which all 21 weights must lie, also those that a call does not read:
 *
 *     weight                 from     to
 *     0-3                    0.0001   36500     the stability after a first review rated 1-4
 *     4                      0        20
 *     5                      0        4
 *     6                      0        6
 *     7, 9, 12, 13, 15, 19   0        1
 *     8                      -5       5
 *     10, 14                 0        5
 *     11                     0.001    10
 *     16                     1        10
 *     17, 18                 0        3
 *     20                     0.1      1
 *
 * What a review is:
 *
 *     day                    -100000  100000    days since the review before; need not be whole
 *     rating                 1        4         1 forgotten, 2 hard, 3 good, 4 easy; in a history also 0, padding; whole
 *     label                  0        1         1 where it was recalled, 0 where not
 *     review weight          0        1000000   how much it counts in a loss
 *     day number             0        100000    of a calendar that counts whole days from a day of the caller's choice
 *
 * A memory state: the stability is from 0.0001 to 36500, the difficulty from 1 to 10.
 */

/* ---- kernels: the answer is returned. exp, expm1, ln and pow give a NaN outside their domain (refusal 10) and nowhere
 * else: exp and expm1 want a finite argument; ln and pow a positive finite x; pow a y from -16 to 16. */
float fsrs_exp_f32(float x);
double fsrs_exp_f64(double x);
/* exp less 1, near also where x is next to 0. */
float fsrs_expm1_f32(float x);
float fsrs_ln_f32(float x);
double fsrs_ln_f64(double x);
float fsrs_pow_f32(float x, float y);
double fsrs_pow_f64(double x, double y);
/* x * y + z with one rounding, as IEEE 754 has it. */
float fsrs_fma_f32(float x, float y, float z);
double fsrs_fma_f64(double x, double y, double z);
/* The nearest whole number; half-way cases go away from zero. */
float fsrs_round_f32(float x);
double fsrs_round_f64(double x);
/* The refusal that an answer of exp, expm1, ln or pow stands for; fma and round refuse nothing. A compiler leaves this test
 * out where it is told that there are no NaNs (-ffast-math). */
static inline uint32_t fsrs_kernel_refusal(double answer) {
    return answer != answer ? FSRS_KERNEL : FSRS_ACCEPTED; /* a NaN alone is not equal to itself */
}

/* ---- weight sets. A set of 0, 17, 19 or 21 entries made 21: none gives the defaults. Refusals 12, 2. */
uint32_t fsrs_check_and_fill_parameters(const float *parameters, size_t parameters_len, float weights[21]);

/* ---- the study screen's formulas (model_v6.rs). Refusals 1, 2, then 13: a number that is not finite, or a day out of its
 * range. A day is rounded to a whole one, and one below 0 is 0. */
/* The probability of recall t days after a review that left the stability s. */
uint32_t fsrs_power_forgetting_curve(const float *w, size_t w_len, float t, float s, float *retrievability);
/* The days after which the desired retention is reached, which is clamped to 0.0001..0.9999. Not rounded. */
uint32_t fsrs_next_interval(const float *w, size_t w_len, float stability, float desired_retention, float *days);
/* A difficulty moved a little from current towards init. */
uint32_t fsrs_mean_reversion(const float *w, size_t w_len, float init, float current, float *difficulty);
/* The parts of a review: 13 also where the stability s, the difficulty d, the retrievability r (0 to 1) or the rating (1-4)
 * is out of its range. The first difficulty is not clamped. */
uint32_t fsrs_init_difficulty(const float *w, size_t w_len, uint32_t rating, float *difficulty);
uint32_t fsrs_next_difficulty(const float *w, size_t w_len, float d, uint32_t rating, float *difficulty);
uint32_t fsrs_stability_after_success(const float *w, size_t w_len, float s, float r, float d, uint32_t rating,
                                      float *stability);
uint32_t fsrs_stability_after_failure(const float *w, size_t w_len, float s, float r, float d, float *stability);
uint32_t fsrs_stability_short_term(const float *w, size_t w_len, float s, uint32_t rating, float *stability);
/* The state of a new card after its first review: the stability is weight rating - 1, the difficulty the first difficulty
 * clamped to 1..10. 13 where the rating is not 1-4. */
uint32_t fsrs_first_state(const float *w, size_t w_len, uint32_t rating, float *stability, float *difficulty);
/* The state after a later review, delta_t days after the one before. The given state is clamped to its range, so that (0, 0)
 * is no new card but one of stability 0.0001. Any rating is taken, and clamped to 1-4. */
uint32_t fsrs_next_state(const float *w, size_t w_len, float stability, float difficulty, float delta_t, uint32_t rating,
                         float *next_stability, float *next_difficulty);
/* The same for a card that was last seen on the day `seen` and is reviewed on `day`, two day numbers: delta_t is their
 * difference, 0 on the same day, and the card is then last seen on `day`. 13 also where either is over 100000, then 15 where
 * `day` is the earlier. The three places may be the variables that hold the card: a refused call writes nothing, and so
 * leaves the given state in them. */
uint32_t fsrs_next_state_on(const float *w, size_t w_len, float stability, float difficulty, uint32_t seen, uint32_t day,
                            uint32_t rating, float *next_stability, float *next_difficulty, uint32_t *next_seen);
/* What is to be said of a row: that it is accepted, or which field is the first wrong one. */
enum {
    FSRS_ROW_ACCEPTED = 0,
    FSRS_ROW_STABILITY = 1,
    FSRS_ROW_DIFFICULTY = 2,
    FSRS_ROW_INTERVAL = 3
};
/* Checks a row that an app has worked out for itself: a state before a review, the days since the review before, the rating,
 * the state after, and the next interval at the retention. Accepted where the three claimed numbers have the bits of
 * fsrs_next_state and, from the stability after, of fsrs_next_interval, which need no call beside this. They are given as
 * their 32 bits, and may be any: -0.0 is not 0.0, and a NaN is judged like every other number. 13 where the state, the day or
 * the retention is refused there. */
uint32_t fsrs_check_row(const float *w, size_t w_len, float stability, float difficulty, float day, uint32_t rating,
                        float retention, uint32_t stability_after, uint32_t difficulty_after, uint32_t interval,
                        uint32_t *verdict);
/* The state of a card from an SM-2 deck, by its ease factor, its interval in days, and the share of the deck's reviews
 * that were recalled (0.9, not 90). The stability is not clamped. Also refusal 14. */
uint32_t fsrs_memory_state_from_sm2(const float *w, size_t w_len, float ease_factor, float interval, float sm2_retention,
                                    float *stability, float *difficulty);

/* ---- one training step (analytic_v6.rs), at the row-th row of its history. The state is any two finite numbers and is
 * clamped first. A rating of 0 is padding; at row 0 with the stability 0 any other is a first step; in these two the day
 * goes unread. Refusals 1, 2, 13, 6, 7. */
/* What a step's record holds, in this order: ten singles, and of a loss call ten columns of singles. */
enum {
    FSRS_RECORD_STABILITY = 0,      /* the state as given */
    FSRS_RECORD_DIFFICULTY = 1,
    FSRS_RECORD_DAY = 2,            /* +0.0 where it goes unread */
    FSRS_RECORD_RATING = 3,
    FSRS_RECORD_RETRIEVABILITY = 4, /* when the review came; +0.0 in padding and in a first step */
    FSRS_RECORD_PRE_STABILITY = 5,  /* the state after the step, before its last clamp */
    FSRS_RECORD_PRE_DIFFICULTY = 6,
    FSRS_RECORD_BRANCH = 7,         /* a number of the list below */
    FSRS_RECORD_BRANCH_RAW = 8,     /* same day: the raw multiplier; lapse: the raw stability; else +0.0 */
    FSRS_RECORD_BRANCH_OTHER = 9    /* same day: the multiplier that was used; lapse: the floor; else +0.0 */
};
/* The branch that a step took, as the single of this number. */
enum {
    FSRS_BRANCH_PADDING = 0,
    FSRS_BRANCH_FIRST = 1,
    FSRS_BRANCH_SAME_DAY = 2,
    FSRS_BRANCH_SAME_DAY_ONE = 3,   /* the raw multiplier was below 1, and 1 was used */
    FSRS_BRANCH_LAPSE = 4,
    FSRS_BRANCH_LAPSE_FLOORED = 5,  /* the floor was below the raw stability, and was used */
    FSRS_BRANCH_SUCCESS = 6
};
/* Where number f of the record of row i stands in the records of a loss call, as it is told of below. */
static inline size_t fsrs_record_cell(size_t records_len, size_t f, size_t i) {
    return f * (records_len / FSRS_RECORD) + i;
}
/* The state after a step, and its record. */
uint32_t fsrs_training_step(const float *w, size_t w_len, float stability, float difficulty, float day, float rating,
                            size_t row, float *next_stability, float *next_difficulty, float record[10]);
/* Its reverse: g_s and g_d are the gradients by the state after it, g_r that by its retrievability. What it gives by the
 * weights is added to the 21 slots of gw. Also refusal 5, after 2. */
uint32_t fsrs_training_step_backward(const float *w, size_t w_len, float stability, float difficulty, float day,
                                     float rating, size_t row, double g_s, double g_d, double g_r, double *gw,
                                     size_t gw_len, double *grad_s, double *grad_d);

/* ---- why a card moved: the rule that gave the stability after a training step. Of this list one holds of a step, and no
 * other. The numbers up to 5 are those of the branch in a record; a success is told by its rating. */
enum {
    FSRS_REASON_PADDING = 0,      /* no review: the state was only clamped */
    FSRS_REASON_FIRST = 1,        /* a first review: a weight */
    FSRS_REASON_SAME_DAY_RAW = 2, /* same day: the raw multiplier, which is 1 or more, or the rating is 1 */
    FSRS_REASON_SAME_DAY_ONE = 3, /* same day: the raw multiplier was below 1, and 1 was taken */
    FSRS_REASON_LAPSE_RAW = 4,    /* lapse: the raw stability, which the floor is not below */
    FSRS_REASON_LAPSE_FLOOR = 5,  /* lapse: the floor, which is below the raw stability */
    FSRS_REASON_SUCCESS = 6,      /* success, rated 3 */
    FSRS_REASON_SUCCESS_HARD = 7, /* success, rated 2: with weight 15 */
    FSRS_REASON_SUCCESS_EASY = 8  /* success, rated 4: with weight 16 */
};
/* Whether a number of the state after a step was held at an end of its range: the number before the last clamp, or in padding
 * the given one, lay outside. One that is exactly at an end was not held. */
enum {
    FSRS_HELD_FREE = 0,
    FSRS_HELD_LOW = 1,
    FSRS_HELD_HIGH = 2
};
typedef struct {
    uint32_t refusal, reason, stability_held, difficulty_held;
} fsrs_reason;
/* The reason of the step that fsrs_training_step makes of the same arguments, and which of its two numbers were held. The
 * refusals are those of that step; beside one the other three numbers are 0. */
fsrs_reason fsrs_explain_step(const float *w, size_t w_len, float stability, float difficulty, float day, float rating,
                              size_t row);
/* A reason, and what was held, in words. */
static inline const char *fsrs_reason_text(uint32_t number) {
    static const char *const texts[] = {
        "padding",
        "first review",
        "same day, raw multiplier taken",
        "same day, multiplier 1 taken",
        "lapse, raw value taken",
        "lapse, floor taken",
        "success",
        "success, hard",
        "success, easy",
    };
    return number < sizeof texts / sizeof *texts ? texts[number] : "no reason has this number";
}
static inline const char *fsrs_held_text(uint32_t number) {
    static const char *const texts[] = {
        "not held",
        "held at its low end",
        "held at its high end",
    };
    return number < sizeof texts / sizeof *texts ? texts[number] : "no end has this number";
}

/* ---- the losses (analytic_v6.rs) of a batch of seq_len rows (0 to 2048) and batch columns (0 to 512). A column is a
 * history that begins at row 0; for one behind padding there is fsrs_batch_loss_in and its like. t_hist has the days and
 * r_hist the ratings; such a table is time-major: the cell of a row and a column is row * batch + column. seq_lens has the
 * length of each column; one above the rows is cut to them. A slice may be longer than it need be.
 *
 * Only what is read is checked. All else may hold any bits, and changes nothing.
 *   Of a prefix are read: each rating in its length; the days of rows 1 onward whose rating is not 0; the weight of the
 *   scored review, and its label and day if that weight is not 0.
 *   Of a card of length n are read: the ratings of rows 0..n-2; the days of rows 1..n-2 whose rating is not 0; the weights
 *   of rows 1..n-1; a label if its weight is not 0; the day of row n-1 if n > 1 and its weight is not 0. Its last rating is
 *   never read.
 *
 * Refusals 1, 2, 5, 3, 4; then column by column 9; row by row rating 6, day 7, weight 8, label 8; and of a prefix's scored
 * review weight 8, label 8, day 7.
 *
 * The gradient is added to the 21 slots of gw. records is room for ten singles, and step_grads for a double, for each row of
 * the longest column, whose length is cut to the rows; a card's last row counts too. Where records_len / 10 or
 * step_grads_len is less, the call is refused by 4, and has written nothing.
 *
 * records is column-major: ten columns, from FSRS_RECORD_STABILITY to FSRS_RECORD_BRANCH_OTHER, one behind another, each of
 * records_len / 10 cells, a cell for each row. So number f of the record of row i is records[f * (records_len / 10) + i]
 * (fsrs_record_cell), and column f is a plain array that begins at records + f * (records_len / 10). The records_len % 10
 * cells behind the last column are never touched.
 *
 * A prefix steps on all its rows, a card on all but its last, whose step gradient is 0. After an accepted call record i is
 * that of the batch's last column that stepped on row i, and step gradient i that of the last card longer than i; the others
 * are as they were. So the path of one history is that of a call of one column, and where the branches were -1 before it,
 * which no branch is, they are so still beyond the last step. The state before a step stands in the first two columns, and
 * that after it at the next row; after the last step it is the two numbers before the last clamp, clamped to their ranges.
 * examples/path.c reads a path. */
/* Prefixes: each column is a history, and the review after it (delta_ts, labels, weights: one a column) is scored. */
uint32_t fsrs_batch_loss(const float *w, size_t w_len, const float *t_hist, size_t t_hist_len, const float *r_hist,
                         size_t r_hist_len, uint32_t seq_len, uint32_t batch, const uint32_t *seq_lens,
                         size_t seq_lens_len, const float *delta_ts, size_t delta_ts_len, const float *labels,
                         size_t labels_len, const float *weights, size_t weights_len, double *loss);
/* The same loss, and its gradient. */
uint32_t fsrs_batch_loss_and_grad(const float *w, size_t w_len, const float *t_hist, size_t t_hist_len,
                                  const float *r_hist, size_t r_hist_len, uint32_t seq_len, uint32_t batch,
                                  const uint32_t *seq_lens, size_t seq_lens_len, const float *delta_ts,
                                  size_t delta_ts_len, const float *labels, size_t labels_len, const float *weights,
                                  size_t weights_len, double *gw, size_t gw_len, float *records, size_t records_len,
                                  double *loss);
/* Cards: every review of a column after its first is scored (labels, weights: tables). A padding row between the first and
 * the last is scored too, at retrievability 0, unless its weight is 0. */
uint32_t fsrs_card_loss(const float *w, size_t w_len, const float *t_hist, size_t t_hist_len, const float *r_hist,
                        size_t r_hist_len, uint32_t seq_len, uint32_t batch, const uint32_t *seq_lens,
                        size_t seq_lens_len, const float *labels, size_t labels_len, const float *weights,
                        size_t weights_len, double *loss);
/* The same loss, and its gradient. */
uint32_t fsrs_card_loss_and_grad(const float *w, size_t w_len, const float *t_hist, size_t t_hist_len,
                                 const float *r_hist, size_t r_hist_len, uint32_t seq_len, uint32_t batch,
                                 const uint32_t *seq_lens, size_t seq_lens_len, const float *labels, size_t labels_len,
                                 const float *weights, size_t weights_len, double *gw, size_t gw_len, float *records,
                                 size_t records_len, double *step_grads, size_t step_grads_len, double *loss);

/* ---- the same losses where histories may stand at the end of their columns, behind padding: end says so. If it is false,
 * these are the four functions above, bit for bit.
 *
 * If it is true, a column's first review is its first row whose rating is not 0, and padding, before it and behind it, is
 * not scored. So a column has the loss and the gradient, bit for bit, that it has at the start: without the padding in front
 * of it, and in a card with the weight 0 in all other padding. A prefix that is all padding scores nothing, and its loss is
 * 0; a card's last row that is padding or the first review scores nothing.
 *
 * Only what is read is checked:
 *   Of a prefix are read: each rating in its length; the days of later rows than the first review whose rating is not 0;
 *   and, unless it is all padding, the weight of the scored review, and its label and day if that weight is not 0.
 *   Of a card are read: each rating, the last one too; and of later rows than the first review whose rating is not 0 the
 *   weights, a label if its weight is not 0, and the days, but the last row's only if its weight is not 0.
 *
 * Refusals as above. Records and step gradients as above, in the rows where the reviews stand: a row in front of the first
 * review is a padding step from (0, 0), after which the state is still (0, 0). The step gradients of padding and of the
 * first review are 0. */
uint32_t fsrs_batch_loss_in(bool end, const float *w, size_t w_len, const float *t_hist, size_t t_hist_len,
                            const float *r_hist, size_t r_hist_len, uint32_t seq_len, uint32_t batch,
                            const uint32_t *seq_lens, size_t seq_lens_len, const float *delta_ts, size_t delta_ts_len,
                            const float *labels, size_t labels_len, const float *weights, size_t weights_len,
                            double *loss);
uint32_t fsrs_batch_loss_and_grad_in(bool end, const float *w, size_t w_len, const float *t_hist, size_t t_hist_len,
                                     const float *r_hist, size_t r_hist_len, uint32_t seq_len, uint32_t batch,
                                     const uint32_t *seq_lens, size_t seq_lens_len, const float *delta_ts,
                                     size_t delta_ts_len, const float *labels, size_t labels_len, const float *weights,
                                     size_t weights_len, double *gw, size_t gw_len, float *records, size_t records_len,
                                     double *loss);
uint32_t fsrs_card_loss_in(bool end, const float *w, size_t w_len, const float *t_hist, size_t t_hist_len,
                           const float *r_hist, size_t r_hist_len, uint32_t seq_len, uint32_t batch,
                           const uint32_t *seq_lens, size_t seq_lens_len, const float *labels, size_t labels_len,
                           const float *weights, size_t weights_len, double *loss);
uint32_t fsrs_card_loss_and_grad_in(bool end, const float *w, size_t w_len, const float *t_hist, size_t t_hist_len,
                                    const float *r_hist, size_t r_hist_len, uint32_t seq_len, uint32_t batch,
                                    const uint32_t *seq_lens, size_t seq_lens_len, const float *labels,
                                    size_t labels_len, const float *weights, size_t weights_len, double *gw,
                                    size_t gw_len, float *records, size_t records_len, double *step_grads,
                                    size_t step_grads_len, double *loss);

/* ---- where a loss call is at fault: for each of the losses the number by which it refuses its inputs and, where that is 6, 7,
 * 8 or 9, the first bad cell in the order of the refusals: no cell before it is bad.
 *
 * column and row count from 0. The row of a prefix's scored review is its length, cut to the rows; that of 9 is 0. A row's 8 is
 * its weight, or its label if the weight is good. Beside every other number column and row are 0, and an accepted call has 0 in
 * all three.
 *
 * The inputs are those of the loss with the mode. Of what that call is lent to write only the lengths count, and only they are
 * given: gw_len, records_len, step_grads_len. */
typedef struct {
    uint32_t refusal, column, row;
} fsrs_fault;
fsrs_fault fsrs_batch_loss_fault(bool end, const float *w, size_t w_len, const float *t_hist, size_t t_hist_len,
                                 const float *r_hist, size_t r_hist_len, uint32_t seq_len, uint32_t batch,
                                 const uint32_t *seq_lens, size_t seq_lens_len, const float *delta_ts,
                                 size_t delta_ts_len, const float *labels, size_t labels_len, const float *weights,
                                 size_t weights_len);
fsrs_fault fsrs_batch_loss_and_grad_fault(bool end, const float *w, size_t w_len, const float *t_hist,
                                          size_t t_hist_len, const float *r_hist, size_t r_hist_len, uint32_t seq_len,
                                          uint32_t batch, const uint32_t *seq_lens, size_t seq_lens_len,
                                          const float *delta_ts, size_t delta_ts_len, const float *labels,
                                          size_t labels_len, const float *weights, size_t weights_len, size_t gw_len,
                                          size_t records_len);
fsrs_fault fsrs_card_loss_fault(bool end, const float *w, size_t w_len, const float *t_hist, size_t t_hist_len,
                                const float *r_hist, size_t r_hist_len, uint32_t seq_len, uint32_t batch,
                                const uint32_t *seq_lens, size_t seq_lens_len, const float *labels, size_t labels_len,
                                const float *weights, size_t weights_len);
fsrs_fault fsrs_card_loss_and_grad_fault(bool end, const float *w, size_t w_len, const float *t_hist, size_t t_hist_len,
                                         const float *r_hist, size_t r_hist_len, uint32_t seq_len, uint32_t batch,
                                         const uint32_t *seq_lens, size_t seq_lens_len, const float *labels,
                                         size_t labels_len, const float *weights, size_t weights_len, size_t gw_len,
                                         size_t records_len, size_t step_grads_len);

/* ---- a pull toward the old weights (training_v7.rs, l2_penalty_value_and_grad), to be added to a loss so that a small deck
 * gives no wild fit. With scale = l2_weight * batch_size / total_size, all in double, the penalty is the sum over the weights
 * of ((w - init_w) / params_stddev)^2, times scale, and slot i is its derivative by weight i, as a single.
 *
 * The 21 slots are written, all of them, and not added to: this is the one gradient here that does not sum up, and what
 * stood in them does not count. They are singles, and other slots than a loss's. A penalty that is not finite gives +0.0
 * throughout, a slot alone that is not finite is +0.0, and a total of 0 gives +0.0 throughout; so all that is written is finite.
 *
 * Refusals 1 for w, init_w or params_stddev, 2 for w or init_w, 5 for slots, then 13: a spread (an entry of params_stddev)
 * that is not finite and above 0, or a size over 2^31. l2_weight is any double. */
uint32_t fsrs_l2_penalty(const float *w, size_t w_len, const float *init_w, size_t init_w_len, uint64_t batch_size,
                         uint64_t total_size, double l2_weight, const float *params_stddev, size_t params_stddev_len,
                         float *slots, size_t slots_len, double *penalty);

/* ---- a starting stability from first recalls (parameter_initialization.rs, initial_stability), for one first rating at a
 * time: it can stand as the weight of that rating, 0 to 3. Row i says that of count[i] cards whose next review came delta_t[i]
 * days after their first one the share recall[i] was recalled. Counts need not be whole, and days may come in any order.
 *
 * The answer is from 0.0001 to 100. It is where the cross entropy of the recalls and of the default weights' forgetting curve,
 * and a sixteenth of the distance from default_stability, add up to the least, as the Rust's search finds it: a Newton search in
 * double, kept inside a bracket, of at most 80 rounds, whose end is made a single. So few recalls leave the default as it is,
 * and no rows give it as a single.
 *
 * Refusals 3: the three columns are not of one length, or have over 4096 rows; then 13: default_stability is not from 0.0001,
 * which is the nearest single, to 100; then row by row 7: a day is not above 0 and at most 100000; 8: a share is not from 0 to 1,
 * or a count not above 0 and at most 2^32. */
uint32_t fsrs_initial_stability(const double *delta_t, size_t delta_t_len, const double *recall, size_t recall_len,
                                const double *count, size_t count_len, double default_stability, float *stability);

/* ---- a batch file, run as one call of its loss with the gradient, which is added to the 21 slots of gw. Its histories
 * begin at row 0. Refusal 11, then those of the loss. Records and step gradients are its own, with room for every file: it
 * takes about 160 KB of the stack.
 *
 * A file is little-endian words of four bytes, at most 512 rows and 65536 bytes. Its first ten words are the kind (1
 * prefixes, 2 cards), the rows, the columns, and at which byte each section begins: weights, days, ratings, lengths, target
 * days (delta_ts), labels, review weights. The sections follow in this order with no gap, the first at 40, and end the file.
 * They have as many entries as the call wants, so cards have no target days. Lengths are whole numbers, all else is the bits
 * of a single. */
uint32_t fsrs_batch_file(const uint8_t *file, size_t file_len, double *gw, size_t gw_len, double *loss);
/* The fault of the call that a file holds, with 21 slots; 11 where it is no batch file. It takes about 130 KB of the stack. */
fsrs_fault fsrs_batch_file_fault(const uint8_t *file, size_t file_len);

#ifdef __cplusplus
}
#endif

#endif
