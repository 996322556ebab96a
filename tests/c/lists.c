/* Runs lists of vectors through the C functions: lists ARITHMETIC STUDY STEP PENALTY INITIAL EXPLAIN LOSSES.., files of
 * crates/vectors/data. Their answers come from a second reading of the rules; the scripts in tools/vectors say what a line
 * holds. Lines about what is no C function are left out. After a refused call what was lent must have the bits that it had. */
#include "../../include/fsrs6.h"
#include "check.h"
#include <stdlib.h>

enum { LINE = 8192, WORDS = LINE / 2, SET = 23, CELLS = 128, RECORDS = 640, STEP_GRADS = 64 };

static const char *list;
static unsigned long line_number;
static uint64_t words[WORDS];

/* What the lines `w` and `g` set for the lines after them. */
static float w[SET];
static double g[SET];
static size_t w_len, g_len;

/* ---- what is lent, in one piece; its first numbers are no answer */

struct lent {
    float answers[FSRS_WEIGHTS], record[FSRS_RECORD];
    uint32_t day, verdict;
    double grad_s, grad_d, loss, penalty, gw[SET];
    float slots[SET];
    float records[RECORDS];
    double step_grads[STEP_GRADS];
};

static struct lent lent, before;

static void lend(void) {
    memset(&lent, 0x5a, sizeof lent);
    memcpy(lent.gw, g, sizeof g);
}

/* Whether the call was accepted, as the list says or not. */
static int expect_refusal(uint32_t is, uint64_t want) {
    expect(is == want, "%s:%lu: %" PRIu32 ", not refusal %" PRIu64, list, line_number, is, want);
    if (is != 0) {
        expect(memcmp(&lent, &before, sizeof lent) == 0, "%s:%lu: refused, and something was written", list, line_number);
    }
    return is == 0 && want == 0;
}

static void expect_bits(const char *what, uint64_t is, uint64_t want) {
    expect(is == want, "%s:%lu: %s %016" PRIx64 ", not %016" PRIx64, list, line_number, what, is, want);
}

static void expect_singles(const char *what, const float *is, const uint64_t *want, size_t n) {
    for (size_t i = 0; i < n; i++) {
        expect_bits(what, single_bits(is[i]), want[i]);
    }
}

static void expect_doubles(const char *what, const double *is, const uint64_t *want, size_t n) {
    for (size_t i = 0; i < n; i++) {
        expect_bits(what, double_bits(is[i]), want[i]);
    }
}

static void take_singles(float *to, const uint64_t *bits, size_t n) {
    for (size_t i = 0; i < n; i++) {
        to[i] = single_of(bits[i]);
    }
}

static void take_doubles(double *to, const uint64_t *bits, size_t n) {
    for (size_t i = 0; i < n; i++) {
        to[i] = double_of(bits[i]);
    }
}

static int take_set(char letter) {
    size_t n = words[0] < SET ? (size_t)words[0] : SET;
    if (letter == 'w') {
        take_singles(w, words + 1, n);
        w_len = n;
    } else if (letter == 'g') {
        take_doubles(g, words + 1, n);
        g_len = n;
    }
    return letter == 'w' || letter == 'g';
}

/* ---- arithmetic */

static void arithmetic_line(char letter) {
    const uint64_t *a = words, want = words[3];
    switch (letter) {
    case 'F':
        expect_bits("fma_f64", double_bits(fsrs_fma_f64(double_of(a[0]), double_of(a[1]), double_of(a[2]))), want);
        break;
    case 'f':
        expect_bits("fma_f32", single_bits(fsrs_fma_f32(single_of(a[0]), single_of(a[1]), single_of(a[2]))), want);
        break;
    case 'R':
        expect_bits("round_f64", double_bits(fsrs_round_f64(double_of(a[0]))), want);
        break;
    case 'r':
        expect_bits("round_f32", single_bits(fsrs_round_f32(single_of(a[0]))), want);
        break;
    }
}

/* ---- study */

static uint32_t formula(char letter, float *answer) {
    const uint64_t *a = words;
    float x = single_of(a[0]), y = single_of(a[1]), z = single_of(a[2]);
    switch (letter) {
    case 'C':
        return fsrs_power_forgetting_curve(w, w_len, x, y, answer);
    case 'I':
        return fsrs_next_interval(w, w_len, x, y, answer);
    case 'S':
        return fsrs_stability_after_success(w, w_len, x, y, z, (uint32_t)a[3], answer);
    case 'L':
        return fsrs_stability_after_failure(w, w_len, x, y, z, answer);
    case 'T':
        return fsrs_stability_short_term(w, w_len, x, (uint32_t)a[1], answer);
    case 'E':
        return fsrs_init_difficulty(w, w_len, (uint32_t)a[0], answer);
    case 'M':
        return fsrs_mean_reversion(w, w_len, x, y, answer);
    case 'D':
        return fsrs_next_difficulty(w, w_len, x, (uint32_t)a[1], answer);
    case 'P':
        return fsrs_memory_state_from_sm2(w, w_len, x, y, z, answer, answer + 1);
    default:
        return fsrs_next_state(w, w_len, x, y, z, (uint32_t)a[3], answer, answer + 1);
    }
}

static void study_line(char letter) {
    if (letter == 'F') {
        if (expect_refusal(fsrs_check_and_fill_parameters(w, w_len, lent.answers), words[0])) {
            expect_singles("weight", lent.answers, words + 1, FSRS_WEIGHTS);
        }
    } else if (letter == 'O') {
        uint32_t n = fsrs_next_state_on(w, w_len, single_of(words[0]), single_of(words[1]), (uint32_t)words[2],
                                        (uint32_t)words[3], (uint32_t)words[4], &lent.answers[0], &lent.answers[1],
                                        &lent.day);
        if (expect_refusal(n, words[5])) {
            expect_singles("answer", lent.answers, words + 6, 2);
            expect_bits("day", lent.day, words[8]);
        }
    } else if (letter == 'R') {
        uint32_t n = fsrs_check_row(w, w_len, single_of(words[0]), single_of(words[1]), single_of(words[2]),
                                    (uint32_t)words[3], single_of(words[4]), (uint32_t)words[5], (uint32_t)words[6],
                                    (uint32_t)words[7], &lent.verdict);
        if (expect_refusal(n, words[8])) {
            expect_bits("verdict", lent.verdict, words[9]);
        }
    } else if (strchr("CISLTEMDNP", letter)) {
        if (expect_refusal(formula(letter, lent.answers), words[4])) {
            expect_singles("answer", lent.answers, words + 5, letter == 'N' || letter == 'P' ? 2 : 1);
        }
    }
}

/* ---- step */

/* The list tells the branch and whether its raw or its floored number counts apart, a record in one number. */
static float branch_number(uint64_t branch, uint64_t flag) {
    switch (branch) {
    case 2:
        return flag ? FSRS_BRANCH_SAME_DAY : FSRS_BRANCH_SAME_DAY_ONE;
    case 3:
        return flag ? FSRS_BRANCH_LAPSE_FLOORED : FSRS_BRANCH_LAPSE;
    default:
        return branch == 4 ? FSRS_BRANCH_SUCCESS : (float)branch;
    }
}

static void expect_record(void) {
    uint64_t branch = words[20], numbers[2] = {0, 0}, number = single_bits(branch_number(branch, words[23]));
    if (branch == 2 || branch == 3) {
        memcpy(numbers, words + 21, sizeof numbers);
    }
    expect_singles("the state as given", lent.record + FSRS_RECORD_STABILITY, words + 11, 2);
    expect_singles("the record", lent.record + FSRS_RECORD_DAY, words + 15, 5);
    expect_singles("the branch", lent.record + FSRS_RECORD_BRANCH, &number, 1);
    expect_singles("the branch's number", lent.record + FSRS_RECORD_BRANCH_RAW, numbers, 2);
}

static void step_line(char letter) {
    const uint64_t *a = words;
    float s = single_of(a[0]), d = single_of(a[1]), day = single_of(a[2]), rating = single_of(a[3]);
    if (letter == 'T') {
        uint32_t n = fsrs_training_step(w, w_len, s, d, day, rating, a[4], &lent.answers[0], &lent.answers[1], lent.record);
        if (expect_refusal(n, a[8])) {
            expect_singles("the state", lent.answers, a + 9, 2);
            expect_record();
        }
    } else if (letter == 'B') {
        uint32_t n = fsrs_training_step_backward(w, w_len, s, d, day, rating, a[4], double_of(a[5]), double_of(a[6]),
                                                 double_of(a[7]), lent.gw, g_len, &lent.grad_s, &lent.grad_d);
        if (expect_refusal(n, a[8])) {
            expect_doubles("by the stability", &lent.grad_s, a + 9, 1);
            expect_doubles("by the difficulty", &lent.grad_d, a + 10, 1);
            expect_doubles("slot", lent.gw, a + 12, FSRS_WEIGHTS);
        }
    }
}

/* ---- losses */

struct slice {
    float at[CELLS];
    size_t n;
};

static const uint64_t *take_slice(struct slice *to, const uint64_t *from) {
    to->n = (size_t)from[0] < CELLS ? (size_t)from[0] : CELLS;
    take_singles(to->at, from + 1, to->n);
    return from + 1 + from[0];
}

static uint64_t mixed(uint64_t h, uint64_t v) {
    uint64_t m = (h ^ v) * 0x100000001b3;
    return m ^ m >> 32;
}

static uint64_t digest(size_t slots, size_t records, size_t step_grads) {
    uint64_t h = 0xcbf29ce484222325;
    for (size_t i = 0; i < slots; i++) {
        h = mixed(h, double_bits(lent.gw[i]));
    }
    for (size_t i = 0; i < records; i++) {
        h = mixed(h, single_bits(lent.records[i]));
    }
    for (size_t i = 0; i < step_grads; i++) {
        h = mixed(h, double_bits(lent.step_grads[i]));
    }
    return h;
}

/* What is lent counts up from the pattern that the line gives. */
static size_t lend_records(uint64_t n, uint64_t first) {
    size_t count = n < RECORDS ? (size_t)n : RECORDS;
    for (size_t i = 0; i < count; i++) {
        uint32_t word = (uint32_t)(first + i);
        memcpy(lent.records + i, &word, sizeof word);
    }
    return count;
}

static size_t lend_step_grads(uint64_t n, uint64_t first) {
    size_t count = n < STEP_GRADS ? (size_t)n : STEP_GRADS;
    for (size_t i = 0; i < count; i++) {
        uint64_t word = first + i;
        memcpy(lent.step_grads + i, &word, sizeof word);
    }
    return count;
}

/* The tables of a call, and what stands behind them. */
static struct slice t, r, days, labels, weights;
static uint32_t rows, columns, lengths[FSRS_MAX_COLUMNS];
static size_t lengths_len;

#define TABLES w, w_len, t.at, t.n, r.at, r.n, rows, columns, lengths, lengths_len
#define SCORED labels.at, labels.n, weights.at, weights.n

static const uint64_t *take_call(void) {
    rows = (uint32_t)words[0], columns = (uint32_t)words[1];
    const uint64_t *at = take_slice(&r, take_slice(&t, words + 2));
    lengths_len = at[0] < FSRS_MAX_COLUMNS ? (size_t)at[0] : FSRS_MAX_COLUMNS;
    for (size_t i = 0; i < lengths_len; i++) {
        lengths[i] = (uint32_t)at[1 + i];
    }
    return take_slice(&weights, take_slice(&labels, take_slice(&days, at + 1 + at[0])));
}

static void loss_line(char letter) {
    if (letter < '0' || letter > '7') {
        return;
    }
    const uint64_t *at = take_call();
    size_t records = lend_records(at[0], at[1]), step_grads = lend_step_grads(at[2], at[3]);
    memcpy(&before, &lent, sizeof lent);
    uint32_t refusal;
    switch (letter) {
    case '0':
        refusal = fsrs_batch_loss_and_grad(TABLES, days.at, days.n, SCORED, lent.gw, g_len, lent.records, records,
                                           &lent.loss);
        break;
    case '1':
        refusal = fsrs_batch_loss(TABLES, days.at, days.n, SCORED, &lent.loss);
        break;
    case '2':
        refusal = fsrs_card_loss_and_grad(TABLES, SCORED, lent.gw, g_len, lent.records, records, lent.step_grads,
                                          step_grads, &lent.loss);
        break;
    case '3':
        refusal = fsrs_card_loss(TABLES, SCORED, &lent.loss);
        break;
    case '4':
        refusal = fsrs_batch_loss_and_grad_in(true, TABLES, days.at, days.n, SCORED, lent.gw, g_len, lent.records,
                                              records, &lent.loss);
        break;
    case '5':
        refusal = fsrs_batch_loss_in(true, TABLES, days.at, days.n, SCORED, &lent.loss);
        break;
    case '6':
        refusal = fsrs_card_loss_and_grad_in(true, TABLES, SCORED, lent.gw, g_len, lent.records, records,
                                             lent.step_grads, step_grads, &lent.loss);
        break;
    default:
        refusal = fsrs_card_loss_in(true, TABLES, SCORED, &lent.loss);
    }
    if (expect_refusal(refusal, at[4])) {
        expect_doubles("loss", &lent.loss, at + 5, 1);
        expect_bits("digest", digest(letter % 2 == 0 ? g_len : 0, records, step_grads), at[6]);
    }
}

/* ---- the pull toward the old weights */

static void penalty_line(char letter) {
    static struct slice old, spreads;
    if (letter != 'P') {
        return;
    }
    const uint64_t *at = take_slice(&spreads, take_slice(&old, words + 3));
    size_t n = at[0] < SET ? (size_t)at[0] : SET;
    for (size_t i = 0; i < SET; i++) {
        lent.slots[i] = single_of(at[1] + i);
    }
    memcpy(&before, &lent, sizeof lent);
    uint32_t refusal = fsrs_l2_penalty(w, w_len, old.at, old.n, words[0], words[1], double_of(words[2]), spreads.at,
                                       spreads.n, lent.slots, n, &lent.penalty);
    if (expect_refusal(refusal, at[2])) {
        expect_doubles("penalty", &lent.penalty, at + 3, 1);
        expect_singles("slot", lent.slots, at + 4, FSRS_WEIGHTS);
    }
}

/* ---- starting stabilities */

struct doubles {
    double at[WORDS];
    size_t n;
};

static const uint64_t *take_column(struct doubles *to, const uint64_t *from) {
    to->n = (size_t)from[0] < WORDS ? (size_t)from[0] : WORDS;
    take_doubles(to->at, from + 1, to->n);
    return from + 1 + from[0];
}

static void initial_line(char letter) {
    static struct doubles days, shares, counts;
    if (letter != 'S') {
        return;
    }
    const uint64_t *at = take_column(&counts, take_column(&shares, take_column(&days, words + 1)));
    uint32_t refusal = fsrs_initial_stability(days.at, days.n, shares.at, shares.n, counts.at, counts.n,
                                              double_of(words[0]), lent.answers);
    if (expect_refusal(refusal, at[0])) {
        expect_singles("stability", lent.answers, at + 1, 1);
    }
}

/* ---- why a card moved, and where a call is at fault. A list counts records, C the singles of them */

static void fault_line(char letter) {
    const uint64_t *at = take_call();
    size_t slots = (size_t)at[1], records = FSRS_RECORD * (size_t)at[2], step_grads = (size_t)at[3];
    fsrs_fault f;
    switch (letter) {
    case '0':
        f = fsrs_batch_loss_and_grad_fault(at[0] != 0, TABLES, days.at, days.n, SCORED, slots, records);
        break;
    case '1':
        f = fsrs_batch_loss_fault(at[0] != 0, TABLES, days.at, days.n, SCORED);
        break;
    case '2':
        f = fsrs_card_loss_and_grad_fault(at[0] != 0, TABLES, SCORED, slots, records, step_grads);
        break;
    default:
        f = fsrs_card_loss_fault(at[0] != 0, TABLES, SCORED);
    }
    expect_bits("refusal", f.refusal, at[4]);
    expect_bits("column", f.column, at[5]);
    expect_bits("row", f.row, at[6]);
}

static void explain_line(char letter) {
    if (letter >= '0' && letter <= '3') {
        fault_line(letter);
    } else if (letter == 'E') {
        float a[4];
        take_singles(a, words, 4);
        fsrs_reason q = fsrs_explain_step(w, w_len, a[0], a[1], a[2], a[3], (size_t)words[4]);
        expect_bits("refusal", q.refusal, words[5]);
        expect_bits("reason", q.reason, words[6]);
        expect_bits("stability held", q.stability_held, words[7]);
        expect_bits("difficulty held", q.difficulty_held, words[8]);
    }
}

/* ---- the files */

static void take_words(const char *text) {
    char *end;
    for (size_t i = 0; i < WORDS; i++, text = end) {
        words[i] = strtoull(text, &end, 16);
        if (end == text) {
            break;
        }
    }
}

static void run(const char *name, void (*try)(char)) {
    static char text[LINE];
    unsigned long earlier = passed + failed;
    FILE *f = fopen(name, "r");
    list = name;
    line_number = 0;
    while (f && fgets(text, sizeof text, f)) {
        line_number++;
        if (text[0] == '#') {
            continue;
        }
        take_words(text + 1);
        if (!take_set(text[0])) {
            lend();
            memcpy(&before, &lent, sizeof lent);
            try(text[0]);
        }
    }
    expect(passed + failed > earlier, "%s: nothing was tried", name);
    if (f) {
        fclose(f);
    }
}

int main(int argc, char **argv) {
    if (argc < 8) {
        fputs("usage: lists ARITHMETIC STUDY STEP PENALTY INITIAL EXPLAIN LOSSES..\n", stderr);
        return 2;
    }
    run(argv[1], arithmetic_line);
    run(argv[2], study_line);
    run(argv[3], step_line);
    run(argv[4], penalty_line);
    run(argv[5], initial_line);
    run(argv[6], explain_line);
    for (int i = 7; i < argc; i++) {
        run(argv[i], loss_line);
    }
    return finish();
}
