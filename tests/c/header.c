/* What include/fsrs6.h says and defines by itself, in the part that C and C++ share: its version, refusals and reasons in words, a
 * refusal by a kernel's answer, the names in a record, and the box, whose table stands on standard input: WEIGHT FROM TO, a line each. */
#include "../../include/fsrs6.h"
#include "check.h"

enum { ROWS = 9, ROOM = ROWS + 1, OVER = 3, CELLS = FSRS_RECORD * ROOM + OVER };

static float w[FSRS_WEIGHTS];

static void version(void) {
    char text[32];
    snprintf(text, sizeof text, "%d.%d.%d", FSRS6_VERSION_MAJOR, FSRS6_VERSION_MINOR, FSRS6_VERSION_PATCH);
    expect(strcmp(text, FSRS6_VERSION) == 0, "version %s, not %s", FSRS6_VERSION, text);
}

/* Numbers up to the last have each a text of their own, and those beyond one. */
static void expect_texts(const char *(*text)(uint32_t), uint32_t last) {
    expect(strcmp(text(UINT32_MAX), text(last + 1)) == 0, "numbers beyond have more than one text");
    for (uint32_t i = 0; i <= last; i++) {
        for (uint32_t j = i + 1; j <= last + 1; j++) {
            expect(strcmp(text(i), text(j)) != 0, "%d and %d have one text", (int)i, (int)j);
        }
    }
}

static void texts(void) {
    expect(strcmp(fsrs_refusal_text(FSRS_ACCEPTED), "accepted") == 0, "0 is not accepted");
    expect(strcmp(fsrs_refusal_text(FSRS_KERNEL), "an argument is outside the kernel's domain") == 0, "10 in words");
    expect(strcmp(fsrs_refusal_text(FSRS_IMPORT), "a card from SM-2 gets no finite stability or difficulty") == 0,
           "14 in words");
    expect(strcmp(fsrs_refusal_text(FSRS_EARLIER), "the day is earlier than the one on which the card was last seen") == 0,
           "15 in words");
    expect(strcmp(fsrs_reason_text(FSRS_REASON_LAPSE_FLOOR), "lapse, floor taken") == 0, "reason 5 in words");
    expect(strcmp(fsrs_held_text(FSRS_HELD_HIGH), "held at its high end") == 0, "2 in words");
    expect_texts(fsrs_refusal_text, FSRS_EARLIER);
    expect_texts(fsrs_reason_text, FSRS_REASON_SUCCESS_EASY);
    expect_texts(fsrs_held_text, FSRS_HELD_HIGH);
}

static void kernel_refusals(void) {
    expect(fsrs_kernel_refusal(fsrs_exp_f32(1)) == FSRS_ACCEPTED, "exp(1) in single");
    expect(fsrs_kernel_refusal(fsrs_exp_f64(710)) == FSRS_ACCEPTED, "exp(710), which is infinite");
    expect(fsrs_kernel_refusal(fsrs_exp_f64(-710)) == FSRS_ACCEPTED, "exp(-710), which is 0");
    expect(fsrs_kernel_refusal(fsrs_ln_f32(0)) == FSRS_KERNEL, "ln(0) in single");
    expect(fsrs_kernel_refusal(fsrs_ln_f64(-1)) == FSRS_KERNEL, "ln(-1)");
    expect(fsrs_kernel_refusal(fsrs_pow_f32(1, 17)) == FSRS_KERNEL, "1 to the power 17");
    expect(fsrs_kernel_refusal(fsrs_expm1_f32(INFINITY)) == FSRS_KERNEL, "exp(infinity) less 1");
}

static void expect_weight(int i, float x, uint32_t wanted) {
    float set[FSRS_WEIGHTS], answer;
    memcpy(set, w, sizeof w);
    set[i] = x;
    uint32_t is = fsrs_power_forgetting_curve(set, FSRS_WEIGHTS, 1, 1, &answer);
    expect(is == wanted, "weight %d at %.9g: %d", i, x, (int)is);
}

static void box(void) {
    int i, n = 0;
    float from, to;
    for (; scanf("%d %f %f", &i, &from, &to) == 3 && i >= 0 && i < FSRS_WEIGHTS; n++) {
        expect_weight(i, from, FSRS_ACCEPTED);
        expect_weight(i, to, FSRS_ACCEPTED);
        expect_weight(i, nextafterf(from, -INFINITY), FSRS_WEIGHT_BOX);
        expect_weight(i, nextafterf(to, INFINITY), FSRS_WEIGHT_BOX);
    }
    expect(n == FSRS_WEIGHTS, "%d weights have their range in the table", n);
}

/* A history that takes every branch. */
static const float days[ROWS] = {0, 0, 0, 4, 3, 0, 100, 0, 10000};
static const float ratings[ROWS] = {3, 3, 4, 1, 3, 0, 1, 1, 1};
static const int branches[ROWS] = {
    FSRS_BRANCH_FIRST,   FSRS_BRANCH_SAME_DAY_ONE, FSRS_BRANCH_SAME_DAY, FSRS_BRANCH_LAPSE,         FSRS_BRANCH_SUCCESS,
    FSRS_BRANCH_PADDING, FSRS_BRANCH_LAPSE,        FSRS_BRANCH_SAME_DAY, FSRS_BRANCH_LAPSE_FLOORED,
};

static const uint32_t reasons[ROWS] = {
    FSRS_REASON_FIRST,   FSRS_REASON_SAME_DAY_ONE, FSRS_REASON_SAME_DAY_RAW, FSRS_REASON_LAPSE_RAW,   FSRS_REASON_SUCCESS,
    FSRS_REASON_PADDING, FSRS_REASON_LAPSE_RAW,    FSRS_REASON_SAME_DAY_RAW, FSRS_REASON_LAPSE_FLOOR,
};

/* A record by its names, for a step from (s, d) that was not held at an end. */
static void expect_names(int row, float s, float d, const float *record) {
    int branch = branches[row];
    float raw = record[FSRS_RECORD_BRANCH_RAW], other = record[FSRS_RECORD_BRANCH_OTHER], after;
    int is_read = branch != FSRS_BRANCH_PADDING && branch != FSRS_BRANCH_FIRST;
    expect_single("the stability as given", record[FSRS_RECORD_STABILITY], s);
    expect_single("the difficulty as given", record[FSRS_RECORD_DIFFICULTY], d);
    expect_single("the day", record[FSRS_RECORD_DAY], is_read ? days[row] : 0);
    expect_single("the rating", record[FSRS_RECORD_RATING], ratings[row]);
    expect_single("the branch", record[FSRS_RECORD_BRANCH], (float)branch);
    if (is_read && days[row] == 0) {
        after = s * other;
        expect((branch == FSRS_BRANCH_SAME_DAY_ONE) == (raw < 1 && other == 1), "row %d: the multiplier", row);
        expect_single("the retrievability", record[FSRS_RECORD_RETRIEVABILITY], 1);
    } else if (branch == FSRS_BRANCH_LAPSE || branch == FSRS_BRANCH_LAPSE_FLOORED) {
        after = other < raw ? other : raw;
        expect((branch == FSRS_BRANCH_LAPSE_FLOORED) == (other < raw), "row %d: the floor", row);
    } else {
        after = record[FSRS_RECORD_PRE_STABILITY];
        expect(single_bits(raw) == 0 && single_bits(other) == 0, "row %d: a branch with no numbers", row);
    }
    expect_single("the stability before its clamp", record[FSRS_RECORD_PRE_STABILITY], after);
}

/* The records of a loss call are those of its steps, each in its cells; what else was lent is as it was. */
static void records(void) {
    const uint32_t length = ROWS;
    const float day = 5, label = 1, weight = 1;
    float lent[CELLS], record[FSRS_RECORD], s = 0, d = 0, next_s, next_d;
    double gw[FSRS_WEIGHTS] = {0}, loss;
    for (int i = 0; i < CELLS; i++) {
        lent[i] = -7;
    }
    expect(fsrs_batch_loss_and_grad(w, FSRS_WEIGHTS, days, ROWS, ratings, ROWS, ROWS, 1, &length, 1, &day, 1, &label, 1,
                                    &weight, 1, gw, FSRS_WEIGHTS, lent, CELLS, &loss) == FSRS_ACCEPTED, "a loss");
    for (int row = 0; row < ROWS; row++, s = next_s, d = next_d) {
        expect(fsrs_training_step(w, FSRS_WEIGHTS, s, d, days[row], ratings[row], (size_t)row, &next_s, &next_d,
                                  record) == FSRS_ACCEPTED, "a step");
        expect_names(row, s, d, record);
        fsrs_reason why = fsrs_explain_step(w, FSRS_WEIGHTS, s, d, days[row], ratings[row], (size_t)row);
        expect(why.refusal == FSRS_ACCEPTED && why.reason == reasons[row], "row %d: reason %d", row, (int)why.reason);
        expect(record[FSRS_RECORD_PRE_STABILITY] == next_s && record[FSRS_RECORD_PRE_DIFFICULTY] <= next_d,
               "row %d: the state after it", row);
        for (int f = 0; f < FSRS_RECORD; f++) {
            expect_single("a cell", lent[f * (CELLS / 10) + row], record[f]);
            expect(fsrs_record_cell(CELLS, (size_t)f, (size_t)row) == (size_t)(f * (CELLS / 10) + row), "where a cell is");
        }
    }
    for (int i = 0; i < CELLS; i++) {
        int is_cell = i < CELLS - OVER && i % ROOM < ROWS;
        expect(is_cell || lent[i] == -7, "cell %d was written", i);
    }
}

/* Two cards of the history's first rows, of which the first column's is the longer: record i is that of the last that stepped
 * on row i, no card steps on its last row, and beyond branches are as they were. Their path by the names is that of the states
 * one by one. */
static void path(void) {
    enum { FIRST = 7, SECOND = 4 };
    const uint32_t lengths[2] = {FIRST, SECOND};
    float tables[2][2 * ROWS], zeros[2 * ROWS] = {0}, lent[CELLS], s = 0, d = 0, record[FSRS_RECORD];
    double gw[FSRS_WEIGHTS] = {0}, step_grads[ROWS], loss;
    for (int i = 0; i < CELLS; i++) {
        lent[i] = -1;
    }
    for (int row = 0; row < ROWS; row++) {
        tables[0][2 * row] = tables[0][2 * row + 1] = days[row];
        tables[1][2 * row] = tables[1][2 * row + 1] = ratings[row];
    }
    tables[1][1] = 1; /* the second card was forgotten at once */
    expect(fsrs_card_loss_and_grad(w, FSRS_WEIGHTS, tables[0], 2 * ROWS, tables[1], 2 * ROWS, ROWS, 2, lengths, 2, zeros,
                                   2 * ROWS, zeros, 2 * ROWS, gw, FSRS_WEIGHTS, lent, CELLS, step_grads, ROWS,
                                   &loss) == FSRS_ACCEPTED, "two cards");
    const float *stability = lent + fsrs_record_cell(CELLS, FSRS_RECORD_STABILITY, 0);
    const float *difficulty = lent + fsrs_record_cell(CELLS, FSRS_RECORD_DIFFICULTY, 0);
    const float *branch = lent + fsrs_record_cell(CELLS, FSRS_RECORD_BRANCH, 0);
    for (int column = 1; column >= 0; column--, s = d = 0) {
        for (int row = 0; row < (int)lengths[column] - 1; row++) {
            if (column == 1 || row >= SECOND - 1) {
                expect_single("the stability on the path", stability[row], s);
                expect_single("the difficulty on the path", difficulty[row], d);
            }
            expect(fsrs_training_step(w, FSRS_WEIGHTS, s, d, days[row], tables[1][2 * row + column], (size_t)row, &s, &d,
                                      record) == FSRS_ACCEPTED, "a step");
            if (column == 1 || row >= SECOND - 1) {
                expect_single("the branch on the path", branch[row], record[FSRS_RECORD_BRANCH]);
            }
        }
    }
    for (int row = FIRST - 1; row < ROOM; row++) {
        expect(branch[row] == -1 && stability[row] == -1, "row %d was stepped on", row);
    }
}

int main(void) {
    float none = 0;
    expect(fsrs_check_and_fill_parameters(&none, 0, w) == FSRS_ACCEPTED, "the default weights");
    version();
    texts();
    kernel_refusals();
    box();
    records();
    path();
    return finish();
}
