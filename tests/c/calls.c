/* Calls every function of include/fsrs6.h: with an answer that follows from document 01, and once for each refusal that the
 * function can give. After a refused call everything that was lent must have the bits that it had. lists.c runs many more
 * answers. */
#include "../../include/fsrs6.h"
#include "check.h"

enum { ROWS = 3, COLUMNS = 2, CELLS = ROWS * COLUMNS, HEADER = 40, FILE_ROOM = 4096 };

/* Everything that a call is lent, in one piece, so that one comparison tells whether anything was written. */
struct call {
    float w[FSRS_WEIGHTS];
    size_t w_len;
    float stability, difficulty, retrievability, retention, day, rating, ease;
    uint32_t whole_rating, seen, day_number, claimed[3];
    size_t row;
    double g_s, g_d, g_r;
    float init_w[FSRS_WEIGHTS], spreads[FSRS_WEIGHTS];
    size_t init_w_len, spreads_len;
    uint64_t batch_size, total_size;
    double l2_weight;
    double recall_days[ROWS], shares[ROWS], counts[ROWS], default_stability;
    size_t recall_days_len, shares_len, counts_len;
    uint32_t rows, columns, lengths[COLUMNS];
    float days[CELLS], ratings[CELLS], target_days[COLUMNS], labels[CELLS], weights[CELLS];
    size_t cells;
    uint32_t kind;
    unsigned char file[FILE_ROOM];
    size_t file_len;
    /* from here on a call may write */
    float filled[FSRS_WEIGHTS], answer, answer_difficulty, record[FSRS_RECORD];
    uint32_t answer_seen, verdict;
    double gw[FSRS_WEIGHTS];
    size_t gw_len;
    float records[FSRS_RECORD * ROWS];
    size_t records_len;
    double step_grads[ROWS], loss, grad_s, grad_d;
    size_t step_grads_len;
    float slots[FSRS_WEIGHTS + 1];
    size_t slots_len;
    double penalty;
};

/* A call that every function accepts, over the default weights; what it may write is not zero. */
static struct call good(void) {
    struct call x = {
        .w_len = FSRS_WEIGHTS,
        .stability = 5,
        .difficulty = 6,
        .retrievability = 0.75f,
        .retention = 0.9f,
        .day = 4,
        .rating = 3,
        .ease = 2.5f,
        .whole_rating = 3,
        .seen = 19000,
        .day_number = 19004,
        .row = 1,
        .g_s = 1,
        .g_d = -2,
        .g_r = 0.5,
        .init_w_len = FSRS_WEIGHTS,
        .spreads_len = FSRS_WEIGHTS,
        .batch_size = 10,
        .total_size = 100,
        .l2_weight = 2,
        .recall_days = {1, 3, 7},
        .shares = {0.95, 0.9, 0.8},
        .counts = {40, 20, 10},
        .default_stability = 2.5,
        .recall_days_len = ROWS,
        .shares_len = ROWS,
        .counts_len = ROWS,
        .rows = ROWS,
        .columns = COLUMNS,
        .lengths = {ROWS, ROWS - 1},
        .days = {0, 0, 4, 0, 9, 2},
        .ratings = {3, 1, 2, 3, 1, 4},
        .target_days = {8, 1},
        .labels = {1, 0, 0, 1, 1, 0.5f},
        .weights = {1, 2, 0.5f, 1, 1, 3},
        .cells = CELLS,
        .kind = 2,
        .answer = 7,
        .answer_difficulty = 8,
        .answer_seen = 12,
        .verdict = 13,
        .gw_len = FSRS_WEIGHTS,
        .records_len = FSRS_RECORD * ROWS,
        .step_grads_len = ROWS,
        .loss = 9,
        .grad_s = 10,
        .grad_d = 11,
        .slots_len = FSRS_WEIGHTS,
        .penalty = 12,
    };
    fsrs_check_and_fill_parameters(&x.answer, 0, x.w);
    for (int i = 0; i < FSRS_WEIGHTS; i++) {
        x.filled[i] = (float)i;
        x.gw[i] = i;
        x.slots[i] = (float)i;
        x.spreads[i] = 1;
    }
    memcpy(x.init_w, x.w, sizeof x.w);
    x.slots[FSRS_WEIGHTS] = -7;
    return x;
}

/* ---- the functions, each on its part of a call */

static uint32_t fill(struct call *x) {
    return fsrs_check_and_fill_parameters(x->w, x->w_len, x->filled);
}

static uint32_t curve(struct call *x) {
    return fsrs_power_forgetting_curve(x->w, x->w_len, x->day, x->stability, &x->answer);
}

static uint32_t interval(struct call *x) {
    return fsrs_next_interval(x->w, x->w_len, x->stability, x->retention, &x->answer);
}

static uint32_t first_difficulty(struct call *x) {
    return fsrs_init_difficulty(x->w, x->w_len, x->whole_rating, &x->answer);
}

static uint32_t reversion(struct call *x) {
    return fsrs_mean_reversion(x->w, x->w_len, x->stability, x->difficulty, &x->answer);
}

static uint32_t difficulty(struct call *x) {
    return fsrs_next_difficulty(x->w, x->w_len, x->difficulty, x->whole_rating, &x->answer);
}

static uint32_t success(struct call *x) {
    return fsrs_stability_after_success(x->w, x->w_len, x->stability, x->retrievability, x->difficulty, x->whole_rating,
                                        &x->answer);
}

static uint32_t failure(struct call *x) {
    return fsrs_stability_after_failure(x->w, x->w_len, x->stability, x->retrievability, x->difficulty, &x->answer);
}

static uint32_t short_term(struct call *x) {
    return fsrs_stability_short_term(x->w, x->w_len, x->stability, x->whole_rating, &x->answer);
}

static uint32_t first_state(struct call *x) {
    return fsrs_first_state(x->w, x->w_len, x->whole_rating, &x->answer, &x->answer_difficulty);
}

static uint32_t state(struct call *x) {
    return fsrs_next_state(x->w, x->w_len, x->stability, x->difficulty, x->day, x->whole_rating, &x->answer,
                           &x->answer_difficulty);
}

static uint32_t on_day(struct call *x) {
    return fsrs_next_state_on(x->w, x->w_len, x->stability, x->difficulty, x->seen, x->day_number, x->whole_rating,
                              &x->answer, &x->answer_difficulty, &x->answer_seen);
}

static uint32_t row(struct call *x) {
    return fsrs_check_row(x->w, x->w_len, x->stability, x->difficulty, x->day, x->whole_rating, x->retention, x->claimed[0],
                          x->claimed[1], x->claimed[2], &x->verdict);
}

static uint32_t sm2(struct call *x) {
    return fsrs_memory_state_from_sm2(x->w, x->w_len, x->ease, x->day, x->retention, &x->answer, &x->answer_difficulty);
}

static uint32_t step(struct call *x) {
    return fsrs_training_step(x->w, x->w_len, x->stability, x->difficulty, x->day, x->rating, x->row, &x->answer,
                              &x->answer_difficulty, x->record);
}

static uint32_t step_backward(struct call *x) {
    return fsrs_training_step_backward(x->w, x->w_len, x->stability, x->difficulty, x->day, x->rating, x->row, x->g_s,
                                       x->g_d, x->g_r, x->gw, x->gw_len, &x->grad_s, &x->grad_d);
}

static fsrs_reason reason_of(const struct call *x) {
    return fsrs_explain_step(x->w, x->w_len, x->stability, x->difficulty, x->day, x->rating, x->row);
}

static uint32_t explain(struct call *x) {
    return reason_of(x).refusal;
}

static uint32_t batch(struct call *x) {
    return fsrs_batch_loss(x->w, x->w_len, x->days, x->cells, x->ratings, x->cells, x->rows, x->columns, x->lengths,
                           COLUMNS, x->target_days, COLUMNS, x->labels, COLUMNS, x->weights, COLUMNS, &x->loss);
}

static uint32_t batch_grad(struct call *x) {
    return fsrs_batch_loss_and_grad(x->w, x->w_len, x->days, x->cells, x->ratings, x->cells, x->rows, x->columns,
                                    x->lengths, COLUMNS, x->target_days, COLUMNS, x->labels, COLUMNS, x->weights,
                                    COLUMNS, x->gw, x->gw_len, x->records, x->records_len, &x->loss);
}

static uint32_t card(struct call *x) {
    return fsrs_card_loss(x->w, x->w_len, x->days, x->cells, x->ratings, x->cells, x->rows, x->columns, x->lengths,
                          COLUMNS, x->labels, x->cells, x->weights, x->cells, &x->loss);
}

static uint32_t card_grad(struct call *x) {
    return fsrs_card_loss_and_grad(x->w, x->w_len, x->days, x->cells, x->ratings, x->cells, x->rows, x->columns,
                                   x->lengths, COLUMNS, x->labels, x->cells, x->weights, x->cells, x->gw, x->gw_len,
                                   x->records, x->records_len, x->step_grads, x->step_grads_len, &x->loss);
}

static uint32_t batch_in(struct call *x, bool end) {
    return fsrs_batch_loss_in(end, x->w, x->w_len, x->days, x->cells, x->ratings, x->cells, x->rows, x->columns,
                              x->lengths, COLUMNS, x->target_days, COLUMNS, x->labels, COLUMNS, x->weights, COLUMNS,
                              &x->loss);
}

static uint32_t batch_grad_in(struct call *x, bool end) {
    return fsrs_batch_loss_and_grad_in(end, x->w, x->w_len, x->days, x->cells, x->ratings, x->cells, x->rows,
                                       x->columns, x->lengths, COLUMNS, x->target_days, COLUMNS, x->labels, COLUMNS,
                                       x->weights, COLUMNS, x->gw, x->gw_len, x->records, x->records_len, &x->loss);
}

static uint32_t card_in(struct call *x, bool end) {
    return fsrs_card_loss_in(end, x->w, x->w_len, x->days, x->cells, x->ratings, x->cells, x->rows, x->columns,
                             x->lengths, COLUMNS, x->labels, x->cells, x->weights, x->cells, &x->loss);
}

static uint32_t card_grad_in(struct call *x, bool end) {
    return fsrs_card_loss_and_grad_in(end, x->w, x->w_len, x->days, x->cells, x->ratings, x->cells, x->rows,
                                      x->columns, x->lengths, COLUMNS, x->labels, x->cells, x->weights, x->cells, x->gw,
                                      x->gw_len, x->records, x->records_len, x->step_grads, x->step_grads_len, &x->loss);
}

/* Their faults: of what is lent the lengths are given. */
static fsrs_fault batch_place(const struct call *x, bool end) {
    return fsrs_batch_loss_fault(end, x->w, x->w_len, x->days, x->cells, x->ratings, x->cells, x->rows, x->columns,
                                 x->lengths, COLUMNS, x->target_days, COLUMNS, x->labels, COLUMNS, x->weights, COLUMNS);
}

static fsrs_fault batch_grad_place(const struct call *x, bool end) {
    return fsrs_batch_loss_and_grad_fault(end, x->w, x->w_len, x->days, x->cells, x->ratings, x->cells, x->rows,
                                          x->columns, x->lengths, COLUMNS, x->target_days, COLUMNS, x->labels, COLUMNS,
                                          x->weights, COLUMNS, x->gw_len, x->records_len);
}

static fsrs_fault card_place(const struct call *x, bool end) {
    return fsrs_card_loss_fault(end, x->w, x->w_len, x->days, x->cells, x->ratings, x->cells, x->rows, x->columns,
                                x->lengths, COLUMNS, x->labels, x->cells, x->weights, x->cells);
}

static fsrs_fault card_grad_place(const struct call *x, bool end) {
    return fsrs_card_loss_and_grad_fault(end, x->w, x->w_len, x->days, x->cells, x->ratings, x->cells, x->rows,
                                         x->columns, x->lengths, COLUMNS, x->labels, x->cells, x->weights, x->cells,
                                         x->gw_len, x->records_len, x->step_grads_len);
}

#define FAULT(NAME) \
    static uint32_t NAME##_fault_in(struct call *x, bool end) { \
        return NAME##_place(x, end).refusal; \
    }

FAULT(batch)
FAULT(batch_grad)
FAULT(card)
FAULT(card_grad)

/* Each of them in both modes. */
#define MODES(NAME) \
    static uint32_t NAME##_at_start(struct call *x) { \
        return NAME##_in(x, false); \
    } \
    static uint32_t NAME##_at_end(struct call *x) { \
        return NAME##_in(x, true); \
    }

MODES(batch)
MODES(batch_grad)
MODES(card)
MODES(card_grad)
MODES(batch_fault)
MODES(batch_grad_fault)
MODES(card_fault)
MODES(card_grad_fault)

static uint32_t penalty(struct call *x) {
    return fsrs_l2_penalty(x->w, x->w_len, x->init_w, x->init_w_len, x->batch_size, x->total_size, x->l2_weight, x->spreads,
                           x->spreads_len, x->slots, x->slots_len, &x->penalty);
}

static uint32_t initial(struct call *x) {
    return fsrs_initial_stability(x->recall_days, x->recall_days_len, x->shares, x->shares_len, x->counts, x->counts_len,
                                  x->default_stability, &x->answer);
}

static uint32_t file(struct call *x) {
    return fsrs_batch_file(x->file, x->file_len, x->gw, x->gw_len, &x->loss);
}

static uint32_t file_fault(struct call *x) {
    return fsrs_batch_file_fault(x->file, x->file_len).refusal;
}

#define BIT(N) (1u << (N))

enum {
    BOX = BIT(FSRS_WEIGHT_COUNT) | BIT(FSRS_WEIGHT_BOX),
    FORMULA = BOX | BIT(FSRS_SCALAR),
    IMPORT = FORMULA | BIT(FSRS_IMPORT),
    ON_DAY = FORMULA | BIT(FSRS_EARLIER),
    STEP = FORMULA | BIT(FSRS_RATING) | BIT(FSRS_DAY),
    CARD = BOX | BIT(FSRS_SIZES) | BIT(FSRS_RATING) | BIT(FSRS_DAY) | BIT(FSRS_REVIEW),
    PREFIX = CARD | BIT(FSRS_EMPTY_PREFIX),
    RECALLS = BIT(FSRS_SIZES) | BIT(FSRS_SCALAR) | BIT(FSRS_DAY) | BIT(FSRS_REVIEW),
    SLOTS = BIT(FSRS_SLOT_COUNT),
    LENT = SLOTS | BIT(FSRS_ROOM),
    /* a file always has 21 weights, whole sections and its own room; its sizes are tried below */
    CARD_FILE = (CARD | SLOTS) & ~(BIT(FSRS_WEIGHT_COUNT) | BIT(FSRS_SIZES))
};

struct function {
    const char *name;
    uint32_t (*call)(struct call *);
    uint32_t refusals;
};

static const struct function functions[] = {
    {"check_and_fill_parameters", fill, BIT(FSRS_FILLING_COUNT) | BIT(FSRS_WEIGHT_BOX)},
    {"power_forgetting_curve", curve, FORMULA},
    {"next_interval", interval, FORMULA},
    {"init_difficulty", first_difficulty, FORMULA},
    {"mean_reversion", reversion, FORMULA},
    {"next_difficulty", difficulty, FORMULA},
    {"stability_after_success", success, FORMULA},
    {"stability_after_failure", failure, FORMULA},
    {"stability_short_term", short_term, FORMULA},
    {"first_state", first_state, FORMULA},
    {"next_state", state, FORMULA},
    {"next_state_on", on_day, ON_DAY},
    {"check_row", row, FORMULA},
    {"memory_state_from_sm2", sm2, IMPORT},
    {"training_step", step, STEP},
    {"training_step_backward", step_backward, STEP | SLOTS},
    {"explain_step", explain, STEP},
    {"batch_loss", batch, PREFIX},
    {"batch_loss_and_grad", batch_grad, PREFIX | LENT},
    {"card_loss", card, CARD},
    {"card_loss_and_grad", card_grad, CARD | LENT},
    {"batch_loss_in, start", batch_at_start, PREFIX},
    {"batch_loss_in, end", batch_at_end, PREFIX},
    {"batch_loss_and_grad_in, start", batch_grad_at_start, PREFIX | LENT},
    {"batch_loss_and_grad_in, end", batch_grad_at_end, PREFIX | LENT},
    {"card_loss_in, start", card_at_start, CARD},
    {"card_loss_in, end", card_at_end, CARD},
    {"card_loss_and_grad_in, start", card_grad_at_start, CARD | LENT},
    {"card_loss_and_grad_in, end", card_grad_at_end, CARD | LENT},
    {"batch_loss_fault, start", batch_fault_at_start, PREFIX},
    {"batch_loss_fault, end", batch_fault_at_end, PREFIX},
    {"batch_loss_and_grad_fault, start", batch_grad_fault_at_start, PREFIX | LENT},
    {"batch_loss_and_grad_fault, end", batch_grad_fault_at_end, PREFIX | LENT},
    {"card_loss_fault, start", card_fault_at_start, CARD},
    {"card_loss_fault, end", card_fault_at_end, CARD},
    {"card_loss_and_grad_fault, start", card_grad_fault_at_start, CARD | LENT},
    {"card_loss_and_grad_fault, end", card_grad_fault_at_end, CARD | LENT},
    {"l2_penalty", penalty, FORMULA | SLOTS},
    {"initial_stability", initial, RECALLS},
    {"batch_file", file, CARD_FILE},
    {"batch_file_fault", file_fault, CARD_FILE & ~SLOTS},
};

/* ---- batch files */

static unsigned char *put_word(unsigned char *at, uint32_t word) {
    for (int i = 0; i < 4; i++) {
        at[i] = (unsigned char)(word >> 8 * i);
    }
    return at + 4;
}

static unsigned char *put_words(unsigned char *at, const void *words, size_t n) {
    for (size_t i = 0; i < n; i++) {
        uint32_t word;
        memcpy(&word, (const unsigned char *)words + 4 * i, 4);
        at = put_word(at, word);
    }
    return at;
}

/* Document 01's file: ten words, then the sections with no gap, each at the offset that the header gives. A call whose sizes
 * are over the limit has no tables to write. */
static void put_file(struct call *x) {
    if (x->rows > ROWS || x->columns > COLUMNS) {
        return;
    }
    size_t cells = (size_t)x->rows * x->columns, scored = x->kind == 1 ? x->columns : cells;
    const struct {
        const void *words;
        size_t n;
    } sections[] = {
        {x->w, FSRS_WEIGHTS},
        {x->days, cells},
        {x->ratings, cells},
        {x->lengths, x->columns},
        {x->target_days, x->kind == 1 ? x->columns : 0},
        {x->labels, scored},
        {x->weights, scored},
    };
    unsigned char *header = put_word(put_word(put_word(x->file, x->kind), x->rows), x->columns);
    unsigned char *at = x->file + HEADER;
    for (size_t i = 0; i < sizeof sections / sizeof *sections; i++) {
        header = put_word(header, (uint32_t)(at - x->file));
        at = put_words(at, sections[i].words, sections[i].n);
    }
    x->file_len = (size_t)(at - x->file);
}

/* ---- refusals */

static void expect_refused(const char *name, uint32_t (*call)(struct call *), struct call *x, uint32_t number) {
    static struct call before;
    memcpy(&before, x, sizeof before);
    uint32_t is = call(x);
    expect(is == number, "%s: %" PRIu32 ", not refusal %" PRIu32, name, is, number);
    expect(memcmp(&before, x, sizeof before) == 0, "%s: refused by %" PRIu32 ", and something was written", name, number);
}

static void few_weights(struct call *x) {
    x->w_len = FSRS_WEIGHTS - 1;
}

static void weight_beyond(struct call *x) {
    x->w[20] = 1.5f;
}

static void weight_none(struct call *x) {
    x->w[0] = NAN;
}

static void rows_over(struct call *x) {
    x->rows = FSRS_MAX_ROWS + 1;
    x->recall_days_len = ROWS - 1;
}

static void columns_over(struct call *x) {
    x->columns = FSRS_MAX_COLUMNS + 1;
    x->shares_len = ROWS - 1;
}

static void cells_short(struct call *x) {
    x->cells = CELLS - 1;
    x->counts_len = ROWS - 1;
}

static void records_short(struct call *x) {
    x->records_len = FSRS_RECORD * ROWS - 1;
}

static void slots_short(struct call *x) {
    x->gw_len = x->slots_len = FSRS_WEIGHTS - 1;
}

static void rating_beyond(struct call *x) {
    x->rating = x->ratings[0] = 5;
}

static void day_beyond(struct call *x) {
    x->day = x->days[COLUMNS] = 100000.0078125f;
    x->recall_days[1] = 0x1.86a0000000001p16;
}

static void label_beyond(struct call *x) {
    x->labels[0] = x->labels[COLUMNS] = -0.5f;
    x->shares[ROWS - 1] = -0.5;
}

static void review_none(struct call *x) {
    x->weights[0] = x->weights[COLUMNS] = NAN;
    x->counts[0] = NAN;
}

static void prefix_empty(struct call *x) {
    x->lengths[1] = 0;
}

static void not_finite(struct call *x) {
    x->stability = x->difficulty = x->ease = x->spreads[20] = INFINITY;
    x->default_stability = INFINITY;
    x->whole_rating = 5;
}

static void retention_none(struct call *x) {
    x->retention = 0;
}

static void day_earlier(struct call *x) {
    x->day_number = x->seen - 1;
}

static const struct {
    uint32_t number;
    void (*make)(struct call *);
} faults[] = {
    {FSRS_WEIGHT_COUNT, few_weights},
    {FSRS_FILLING_COUNT, few_weights},
    {FSRS_WEIGHT_BOX, weight_beyond},
    {FSRS_WEIGHT_BOX, weight_none},
    {FSRS_SIZES, rows_over},
    {FSRS_SIZES, columns_over},
    {FSRS_SIZES, cells_short},
    {FSRS_ROOM, records_short},
    {FSRS_SLOT_COUNT, slots_short},
    {FSRS_RATING, rating_beyond},
    {FSRS_DAY, day_beyond},
    {FSRS_REVIEW, label_beyond},
    {FSRS_REVIEW, review_none},
    {FSRS_EMPTY_PREFIX, prefix_empty},
    {FSRS_SCALAR, not_finite},
    {FSRS_IMPORT, retention_none},
    {FSRS_EARLIER, day_earlier},
};

static void try_faults(const struct function *f) {
    uint32_t seen = 0;
    for (size_t i = 0; i < sizeof faults / sizeof *faults; i++) {
        if (!(f->refusals & BIT(faults[i].number))) {
            continue;
        }
        struct call x = good();
        faults[i].make(&x);
        put_file(&x);
        expect_refused(f->name, f->call, &x, faults[i].number);
        seen |= BIT(faults[i].number);
    }
    expect(seen == f->refusals, "%s: not every refusal was tried", f->name);
}

static void refusals(void) {
    for (size_t i = 0; i < sizeof functions / sizeof *functions; i++) {
        struct call x = good();
        put_file(&x);
        expect(functions[i].call(&x) == FSRS_ACCEPTED, "%s: refused", functions[i].name);
        try_faults(&functions[i]);
    }
}

static void first_states_refused(void) {
    const uint32_t ratings[] = {0, 5, 6, 1u << 31, UINT32_MAX};
    for (size_t i = 0; i < sizeof ratings / sizeof *ratings; i++) {
        struct call x = good();
        x.whole_rating = ratings[i];
        expect_refused("a first rating out of range", first_state, &x, FSRS_SCALAR);
        /* the weights come first */
        x.w[20] = 1.5f;
        expect_refused("a weight and a first rating", first_state, &x, FSRS_WEIGHT_BOX);
        x.w_len = FSRS_WEIGHTS - 1;
        expect_refused("20 weights and a first rating", first_state, &x, FSRS_WEIGHT_COUNT);
        x.w_len = 0;
        expect_refused("no weights and a first rating", first_state, &x, FSRS_WEIGHT_COUNT);
    }
}

static void expect_day(struct call x, uint32_t seen, uint32_t day, uint32_t number) {
    x.seen = seen;
    x.day_number = day;
    expect_refused("next_state_on", on_day, &x, number);
}

/* 1, 2, 13 and 15, in this order. */
static void days_refused(void) {
    const uint32_t last = FSRS_MAX_DAY;
    struct call x = good();
    expect_day(x, 1, 0, FSRS_EARLIER);
    expect_day(x, last, 0, FSRS_EARLIER);
    expect_day(x, last, last - 1, FSRS_EARLIER);
    const uint32_t beyond[] = {last + 1, 1u << 24, UINT32_MAX};
    for (size_t i = 0; i < sizeof beyond / sizeof *beyond; i++) {
        expect_day(x, 0, beyond[i], FSRS_SCALAR);
        expect_day(x, beyond[i], beyond[i], FSRS_SCALAR);
        /* 13 comes before 15 */
        expect_day(x, beyond[i], 0, FSRS_SCALAR);
        expect_day(x, beyond[i], last, FSRS_SCALAR);
    }
    x.difficulty = NAN;
    expect_day(x, 5, 4, FSRS_SCALAR);
    x.w[20] = 1.5f;
    expect_day(x, 5, 4, FSRS_WEIGHT_BOX);
    x.w_len = FSRS_WEIGHTS - 1;
    expect_day(x, 5, 4, FSRS_WEIGHT_COUNT);
}

static void expect_import(float ease, float interval, float retention, uint32_t number) {
    struct call x = good();
    x.ease = ease;
    x.day = interval;
    x.retention = retention;
    expect_refused("memory_state_from_sm2", sm2, &x, number);
}

static void imports_refused(void) {
    const float beyond[] = {INFINITY, -INFINITY, NAN};
    for (size_t i = 0; i < sizeof beyond / sizeof *beyond; i++) {
        expect_import(beyond[i], 4, 0.9f, FSRS_SCALAR);
        expect_import(2.5f, beyond[i], 0.9f, FSRS_SCALAR);
        expect_import(2.5f, 4, beyond[i], FSRS_SCALAR);
        /* 13 comes before 14 */
        expect_import(beyond[i], 4, 0, FSRS_SCALAR);
        expect_import(2.5f, beyond[i], 1, FSRS_SCALAR);
    }
    const float retentions[] = {0, -0.0f, -0x1p-149f, -0.5f, -3e38f, 1, 1 + 0x1p-23f, 1.5f, 90, 3e38f};
    for (size_t i = 0; i < sizeof retentions / sizeof *retentions; i++) {
        expect_import(2.5f, 4, retentions[i], FSRS_IMPORT);
    }
    /* the difficulty is infinite: clamped, it would be 1 and 10 */
    expect_import(3e38f, 4, 0.9f, FSRS_IMPORT);
    expect_import(-3e38f, 4, 0.9f, FSRS_IMPORT);
    /* the divisor is 0 */
    struct call x = good();
    x.w[10] = 0;
    expect_refused("weight 10 at 0", sm2, &x, FSRS_IMPORT);
    /* the weights come first */
    x = good();
    x.retention = 0;
    x.ease = NAN;
    x.w[20] = 1.5f;
    expect_refused("a weight, an ease and a retention", sm2, &x, FSRS_WEIGHT_BOX);
    x.w_len = FSRS_WEIGHTS - 1;
    expect_refused("20 weights, an ease and a retention", sm2, &x, FSRS_WEIGHT_COUNT);
}

static void expect_penalty(const char *name, struct call x, uint32_t number) {
    expect_refused(name, penalty, &x, number);
}

/* 1, 2, 5 and 13, in this order, and all of them before a total of 0. */
static void penalties_refused(void) {
    struct call x = good();
    x.total_size = 0;
    const float spreads[] = {0, -0.0f, -1, -0x1p-149f, INFINITY, -INFINITY, NAN};
    for (size_t i = 0; i < sizeof spreads / sizeof *spreads; i++) {
        x.spreads[i * 3] = spreads[i];
        expect_penalty("a spread out of range", x, FSRS_SCALAR);
        x.spreads[i * 3] = 1;
    }
    const uint64_t beyond[] = {FSRS_MAX_SIZE + 1, UINT64_C(1) << 32, UINT64_C(1) << 63, UINT64_MAX};
    for (size_t i = 0; i < sizeof beyond / sizeof *beyond; i++) {
        x.batch_size = beyond[i];
        expect_penalty("a batch size out of range", x, FSRS_SCALAR);
        x.batch_size = 10;
        x.total_size = beyond[i];
        expect_penalty("a total out of range", x, FSRS_SCALAR);
        x.total_size = 0;
    }
    x.spreads[20] = 0;
    x.total_size = UINT64_MAX;
    x.slots_len = FSRS_WEIGHTS + 1;
    expect_penalty("22 slots, a spread and a total", x, FSRS_SLOT_COUNT);
    x.slots_len = 0;
    expect_penalty("no slots, a spread and a total", x, FSRS_SLOT_COUNT);
    x.init_w[8] = -5.5f;
    expect_penalty("an old weight, and slots", x, FSRS_WEIGHT_BOX);
    x.init_w[8] = 0;
    x.w[0] = NAN;
    expect_penalty("a weight, and slots", x, FSRS_WEIGHT_BOX);
    x.spreads_len = FSRS_WEIGHTS - 1;
    expect_penalty("20 spreads, and a weight", x, FSRS_WEIGHT_COUNT);
    x.spreads_len = FSRS_WEIGHTS;
    x.init_w_len = 0;
    expect_penalty("no old weights, and a weight", x, FSRS_WEIGHT_COUNT);
    x.init_w_len = FSRS_WEIGHTS;
    x.w_len = FSRS_WEIGHTS - 1;
    expect_penalty("20 weights", x, FSRS_WEIGHT_COUNT);
}

/* One cell at a time, in each row. */
static void expect_cells(const char *name, double *cells, const double *bad, size_t n, struct call *x, uint32_t number) {
    for (size_t i = 0; i < n; i++) {
        for (size_t row = 0; row < ROWS; row++) {
            double was = cells[row];
            cells[row] = bad[i];
            expect_refused(name, initial, x, number);
            cells[row] = was;
        }
    }
}

static void expect_recalls(const char *name, struct call x, uint32_t number) {
    expect_refused(name, initial, &x, number);
}

/* 3, 13, then row by row 7 and 8, in this order. */
static void recalls_refused(void) {
    struct call x = good();
    const double least = 0x1p-1074;
    const double days[] = {0, -0.0, -least, -1, 0x1.86a0000000001p16, INFINITY, -INFINITY, NAN};
    const double shares[] = {-least, 1 + 0x1p-52, 2, 90, -1, INFINITY, -INFINITY, NAN};
    const double counts[] = {0, -0.0, -least, -1, 0x1.0000000000001p32, INFINITY, -INFINITY, NAN};
    expect_cells("a day out of range", x.recall_days, days, sizeof days / sizeof *days, &x, FSRS_DAY);
    expect_cells("a share out of range", x.shares, shares, sizeof shares / sizeof *shares, &x, FSRS_REVIEW);
    expect_cells("a count out of range", x.counts, counts, sizeof counts / sizeof *counts, &x, FSRS_REVIEW);
    /* 0.0001 as a single is 0x1.a36e2ep-14 */
    const double defaults[] = {0, -0.0, least, 0x1.a36e2dfffffffp-14, 0x1.9000000000001p6, 36500, -1, INFINITY, -INFINITY, NAN};
    for (size_t i = 0; i < sizeof defaults / sizeof *defaults; i++) {
        struct call y = good();
        y.default_stability = defaults[i];
        expect_recalls("a default out of range", y, FSRS_SCALAR);
        y.recall_days[0] = 0;
        y.shares[0] = 2;
        expect_recalls("a default, a day and a share", y, FSRS_SCALAR);
        y.counts_len = ROWS - 1;
        expect_recalls("unequal columns, and a default", y, FSRS_SIZES);
        y.recall_days_len = y.shares_len = y.counts_len = 0;
        expect_recalls("no rows, and a default", y, FSRS_SCALAR);
    }
    /* in a row the day comes first, and of two rows the first one */
    x.recall_days[1] = 0;
    x.shares[1] = 2;
    expect_recalls("a day and a share of one row", x, FSRS_DAY);
    x.shares[0] = 2;
    expect_recalls("a share before a day", x, FSRS_REVIEW);
    x.shares[0] = 0.5;
    x.counts[0] = 0;
    expect_recalls("a count before a day", x, FSRS_REVIEW);
    x.recall_days[0] = NAN;
    expect_recalls("a day and a count of one row", x, FSRS_DAY);
    /* each column shorter or longer than the others */
    for (int i = 0; i < 6; i++) {
        struct call y = good();
        size_t *lengths[] = {&y.recall_days_len, &y.shares_len, &y.counts_len};
        if (i < 3) {
            *lengths[i] = 0;
        } else {
            *lengths[i % 3] = *lengths[(i + 1) % 3] = ROWS - 1;
        }
        expect_recalls("unequal columns", y, FSRS_SIZES);
    }
}

/* ---- answers */

static void expect_initial(const char *name, double day, double share, double count, double start, float want) {
    struct call x = good();
    x.recall_days_len = x.shares_len = x.counts_len = 1;
    x.recall_days[0] = day;
    x.shares[0] = share;
    x.counts[0] = count;
    x.default_stability = start;
    expect(initial(&x) == FSRS_ACCEPTED, "%s: refused", name);
    expect_single(name, x.answer, want);
}

/* A slope that is no number is not above 0, so that the search goes up to 100, by halves: 100, or the single before it. */
static void expect_no_slope(double day, double share, double start) {
    struct call x = good();
    x.recall_days_len = x.shares_len = x.counts_len = 1;
    x.recall_days[0] = day;
    x.shares[0] = share;
    x.default_stability = start;
    expect(initial(&x) == FSRS_ACCEPTED, "no slope: refused");
    expect(x.answer <= 100 && x.answer >= 0x1.8ffffep6f, "no slope: %g, not 100", (double)x.answer);
}

/* Answers that need no search by hand: the default, an end of the range, and a stability that is known. */
static void recalls(void) {
    const double most = 0x1p32, least = 0x1p-1074, first = 0.0001f;
    const double defaults[] = {first, 0.0001, 0.212f, 1 + 0x1p-30, 2.5, 8.2956, 50, 100};
    for (size_t i = 0; i < sizeof defaults / sizeof *defaults; i++) {
        double start = defaults[i];
        struct call x = good();
        x.recall_days_len = x.shares_len = x.counts_len = 0;
        x.default_stability = start;
        expect(initial(&x) == FSRS_ACCEPTED, "no rows: refused");
        expect_single("no rows", x.answer, (float)start);
        expect_initial("next to no cards", 5, 0.25, least, start, (float)start);
        expect_initial("all forgotten", 1, 0, most, start, 0.0001f);
        expect_initial("all forgotten, -0.0", 100000, -0.0, most, start, 0.0001f);
        expect_initial("all recalled after long", 100000, 1, most, start, 100);
        /* so few days that the curve is 1: a slope of +infinity; 0 / 0; and infinity * 0, where days times the decay are 0 */
        expect_initial("1e-300 days, half recalled", 1e-300, 0.5, 1, start, 0.0001f);
        expect_initial("1e-300 days, none recalled", 1e-300, 0, most, start, 0.0001f);
        expect_no_slope(1e-300, 1, start);
        expect_no_slope(least, 0, start);
        /* where nine of ten are recalled after so many days, the stability is just that: so it is defined. There are so many
         * cards that the default does not count. */
        const double days[] = {0.01, 0.5, 1, 3, 20, 64};
        for (size_t j = 0; j < sizeof days / sizeof *days; j++) {
            expect_initial("nine of ten recalled", days[j], 0.9, most, start, (float)days[j]);
        }
    }
}

/* 4096 rows, and one more. */
static void long_recalls(void) {
    static double days[FSRS_MAX_RECALLS + 1], shares[FSRS_MAX_RECALLS + 1], counts[FSRS_MAX_RECALLS + 1];
    const size_t most = FSRS_MAX_RECALLS;
    float answer = 7;
    for (size_t i = 0; i <= most; i++) {
        days[i] = 3;
        shares[i] = 0.9;
        counts[i] = 0x1p20;
    }
    expect(fsrs_initial_stability(days, most, shares, most, counts, most, 2.5, &answer) == FSRS_ACCEPTED, "4096 rows: refused");
    expect_single("4096 rows", answer, 3);
    answer = 7;
    expect(fsrs_initial_stability(days, most + 1, shares, most + 1, counts, most + 1, 2.5, &answer) == FSRS_SIZES, "4097 rows");
    expect_single("4097 rows", answer, 7);
    /* 3 comes before 13 and 7; the last row is looked at too */
    days[most] = shares[most - 1] = -1;
    expect(fsrs_initial_stability(days, most + 1, shares, most + 1, counts, most + 1, NAN, &answer) == FSRS_SIZES,
           "4097 rows, and a default");
    expect(fsrs_initial_stability(days, most, shares, most, counts, most, 2.5, &answer) == FSRS_REVIEW,
           "the last of 4096 rows");
    expect_single("the last of 4096 rows", answer, 7);
}

static void expect_slots(const char *name, struct call *x, double wanted, float slot_4, float others) {
    expect(penalty(x) == FSRS_ACCEPTED, "%s: refused", name);
    expect_double(name, x->penalty, wanted);
    for (int i = 0; i < FSRS_WEIGHTS; i++) {
        expect_single(name, x->slots[i], i == 4 ? slot_4 : others);
    }
    expect_single("a slot that was not lent", x->slots[FSRS_WEIGHTS], -7);
}

/* The difference is 0.5 and the spread a power of 2, so that each number is known. Slots are written, and not added to. */
static void penalties(void) {
    struct call x = good();
    x.init_w[4] = 6;
    x.w[4] = 6.5f;
    x.batch_size = 10;
    x.total_size = 80;
    expect_slots("a difference of 0.5", &x, 0.25 * 2 * 10 / 80, 2 * 0.5f * 2 * 10 / 80, 0);
    expect_slots("the same over its own slots", &x, 0.25 * 2 * 10 / 80, 2 * 0.5f * 2 * 10 / 80, 0);
    x.spreads[4] = 0.25f;
    expect_slots("a spread of 0.25", &x, 4 * 0.25, 4, 0);
    x.l2_weight = -2;
    expect_slots("a negative factor", &x, -1, -4, -0.0f);
    x.batch_size = 0;
    expect_slots("a batch of 0 and a negative factor", &x, -0.0, -0.0f, -0.0f);
    x.l2_weight = INFINITY;
    expect_slots("a batch of 0 and an infinite factor", &x, 0, 0, 0);
    const double factors[] = {2, -2, NAN, INFINITY, -INFINITY, 0, -0.0};
    for (size_t i = 0; i < sizeof factors / sizeof *factors; i++) {
        struct call y = x;
        y.l2_weight = factors[i];
        y.batch_size = 10;
        y.total_size = 0;
        expect_slots("a total of 0", &y, 0, 0, 0);
    }
    /* 3 * 1 / 10 is the double nearest to 0.3, and 3 * (1 / 10) is not */
    x = good();
    x.init_w[4] = 6;
    x.w[4] = 7;
    x.batch_size = 1;
    x.total_size = 10;
    x.l2_weight = 3;
    expect_slots("the product first", &x, 0.3, 0.6f, 0);
    /* a slot's finiteness is asked of the single: the double is 2^128, and the penalty stays */
    x.batch_size = x.total_size = FSRS_MAX_SIZE;
    x.l2_weight = 0x1p127;
    expect_slots("a slot that is not finite", &x, 0x1p127, 0, 0);
    x.l2_weight = 0x1p126;
    expect_slots("a slot that is", &x, 0x1p126, 0x1p127f, 0);
    /* the product overflows, though the quotient would not */
    x.l2_weight = 0x1p1000;
    expect_slots("a factor of 2^1000", &x, 0, 0, 0);
    /* the scale is finite, and the penalty is not: +0.0 throughout, though the slots of equal weights would be -0.0 */
    x.batch_size = x.total_size = 1;
    x.init_w[4] = 5;
    x.l2_weight = -0x1p1022;
    expect_slots("a penalty that is not finite", &x, 0, 0, 0);
    x.init_w[4] = 6;
    expect_slots("a penalty that is", &x, -0x1p1022, 0, -0.0f);
    x.spreads[4] = 0x1p-149f;
    x.l2_weight = 1;
    expect_slots("the smallest spread", &x, 0x1p298, 0, 0);
}

static void kernels(void) {
    expect_single("exp_f32(-0)", fsrs_exp_f32(-0.0f), 1);
    expect_double("exp_f64(-0)", fsrs_exp_f64(-0.0), 1);
    /* docs/KERNELS.md works these two out by hand */
    expect_single("exp_f32(1)", fsrs_exp_f32(1), single_of(0x402df854));
    expect_double("exp_f64(1)", fsrs_exp_f64(1), double_of(0x4005bf0a8b145769));
    expect_single("exp_f32(89)", fsrs_exp_f32(89), INFINITY);
    expect_single("exp_f32(-89)", fsrs_exp_f32(-89), 0);
    expect_double("exp_f64(710)", fsrs_exp_f64(710), INFINITY);
    expect_double("exp_f64(-710)", fsrs_exp_f64(-710), 0);
    expect_single("expm1_f32(1)", fsrs_expm1_f32(1), single_of(0x3fdbf0a9));
    expect_single("expm1_f32(89)", fsrs_expm1_f32(89), INFINITY);
    expect_single("expm1_f32(-89)", fsrs_expm1_f32(-89), -1);
    /* next to 0 the argument itself */
    const float tiny[] = {0, 0x1p-149f, 0x1p-126f, 0x1p-54f, 0x1p-24f};
    for (size_t i = 0; i < sizeof tiny / sizeof *tiny; i++) {
        expect_single("expm1_f32, tiny", fsrs_expm1_f32(tiny[i]), tiny[i]);
        expect_single("expm1_f32, -tiny", fsrs_expm1_f32(-tiny[i]), -tiny[i]);
    }
    expect_single("ln_f32(1)", fsrs_ln_f32(1), 0);
    expect_double("ln_f64(1)", fsrs_ln_f64(1), 0);
    expect_single("pow_f32(1, 16)", fsrs_pow_f32(1, 16), 1);
    expect_double("pow_f64(1, -16)", fsrs_pow_f64(1, -16), 1);
    expect_single("pow_f32(7, -0)", fsrs_pow_f32(7, -0.0f), 1);
    expect_double("pow_f64(7, 0)", fsrs_pow_f64(7, 0), 1);
    expect_single("fma_f32", fsrs_fma_f32(1 + 0x1p-12f, 1 + 0x1p-12f, -1), 0x1p-11f + 0x1p-24f);
    expect_double("fma_f64", fsrs_fma_f64(1 + 0x1p-27, 1 + 0x1p-27, -1), 0x1p-26 + 0x1p-54);
    expect_single("round_f32(2.5)", fsrs_round_f32(2.5f), 3);
    expect_single("round_f32, below 0.5", fsrs_round_f32(0x1.fffffep-2f), 0);
    expect_double("round_f64(-2.5)", fsrs_round_f64(-2.5), -3);
    expect_double("round_f64, below 0.5", fsrs_round_f64(0x1.fffffffffffffp-2), 0);
}

static void kernels_refused(void) {
    const float beyond[] = {INFINITY, -INFINITY, NAN, 0, -0.0f, -1};
    for (size_t i = 0; i < sizeof beyond / sizeof *beyond; i++) {
        float x = beyond[i];
        if (i < 3) {
            expect_single("exp_f32 refused", fsrs_exp_f32(x), NAN);
            expect_double("exp_f64 refused", fsrs_exp_f64(x), NAN);
            expect_single("expm1_f32 refused", fsrs_expm1_f32(x), NAN);
            expect_single("pow_f32 refused by y", fsrs_pow_f32(1, x), NAN);
            expect_double("pow_f64 refused by y", fsrs_pow_f64(1, x), NAN);
        }
        expect_single("ln_f32 refused", fsrs_ln_f32(x), NAN);
        expect_double("ln_f64 refused", fsrs_ln_f64(x), NAN);
        expect_single("pow_f32 refused by x", fsrs_pow_f32(x, 1), NAN);
        expect_double("pow_f64 refused by x", fsrs_pow_f64(x, 1), NAN);
    }
    expect_single("pow_f32(1, 17)", fsrs_pow_f32(1, 17), NAN);
    expect_double("pow_f64(1, -17)", fsrs_pow_f64(1, -17), NAN);
}

static void expect_answer(const char *name, uint32_t (*call)(struct call *), struct call x, float want) {
    expect(call(&x) == FSRS_ACCEPTED, "%s: refused", name);
    expect_single(name, x.answer, want);
}

/* Weights and arguments at which the text leaves nothing but 1, 0 or what was given. */
static void formulas(void) {
    struct call x = good();
    expect(fill(&x) == FSRS_ACCEPTED && memcmp(x.filled, x.w, sizeof x.w) == 0, "21 weights were not left as they are");
    x.day = 0;
    x.whole_rating = 1;
    expect_answer("the curve on day 0", curve, x, 1);
    expect_answer("a first difficulty, rating 1", first_difficulty, x, x.w[4]);
    x = good();
    x.retrievability = 1;
    expect_answer("a success at retrievability 1", success, x, x.stability);
    x.stability = 36500;
    x.retention = 0.0001f;
    expect_answer("the longest interval", interval, x, 36500);
    x = good();
    x.w[7] = 0;
    expect_answer("mean reversion by nothing", reversion, x, x.difficulty);
    expect_answer("a difficulty after rating 3", difficulty, x, x.difficulty);
    x.w[13] = 0;
    expect_answer("a lapse without weight 13", failure, x, 0.0001f);
    x.w[17] = x.w[19] = 0;
    x.day = 0;
    expect_answer("the same day without weights 17 and 19", short_term, x, x.stability);
    expect_answer("the next state on the same day", state, x, x.stability);
    state(&x);
    expect_single("its difficulty", x.answer_difficulty, x.difficulty);
}

static void expect_state(const char *name, uint32_t (*call)(struct call *), struct call x, float s, float d) {
    expect(call(&x) == FSRS_ACCEPTED, "%s: refused", name);
    expect_single(name, x.answer, s);
    expect_single(name, x.answer_difficulty, d);
}

/* Weights 4 and 5, and the difficulty after a first review rated 1-4 where it is known with no exp; 0 where it is not. */
static const struct {
    float w4, w5, difficulties[4];
} firsts[] = {
    {6.4133f, 0.8334f, {6.4133f, 0, 0, 1}}, /* the defaults */
    {5, 0, {5, 5, 5, 5}},
    {0, 0, {1, 1, 1, 1}},
    {20, 0.25f, {10, 10, 10, 10}},
    {20, 4, {10, 1, 1, 1}},
    {0, 4, {1, 1, 1, 1}},
    {10, 0.5f, {10, 0, 0, 0}},
    {7.5f, 0.125f, {7.5f, 0, 0, 0}},
};

/* The stability is a weight; the difficulty is the first difficulty, clamped. */
static void first_states(void) {
    for (size_t i = 0; i < sizeof firsts / sizeof *firsts; i++) {
        struct call x = good();
        expect(i > 0 || (x.w[4] == firsts[0].w4 && x.w[5] == firsts[0].w5), "these are not the default weights");
        x.w[4] = firsts[i].w4;
        x.w[5] = firsts[i].w5;
        for (x.whole_rating = 1; x.whole_rating <= 4; x.whole_rating++) {
            float known = firsts[i].difficulties[x.whole_rating - 1];
            x.w[x.whole_rating - 1] *= i % 2 ? 1.5f : 1;
            expect(first_difficulty(&x) == FSRS_ACCEPTED, "a first difficulty was refused");
            float d = x.answer < 1 ? 1 : x.answer > 10 ? 10 : x.answer;
            expect_state("a first state", first_state, x, x.w[x.whole_rating - 1], known != 0 ? known : d);
            expect(known != 0 || (d > 1 && d < 10), "a first difficulty between the ends is %g", d);
        }
    }
    struct call x = good();
    x.whole_rating = 1;
    x.w[0] = 0.0001f;
    expect_state("the least first stability", first_state, x, 0.0001f, x.w[4]);
    x.w[0] = 36500;
    expect_state("the greatest first stability", first_state, x, 36500, x.w[4]);
    /* what the next state makes of (0, 0) is no first review */
    x = good();
    x.stability = x.difficulty = x.day = 0;
    expect(state(&x) == FSRS_ACCEPTED && x.answer < 0.001f, "(0, 0) was taken for a new card");
}

/* The state is that of fsrs_next_state after the days between, and the day is carried on. */
static void days_carried(void) {
    const uint32_t days[][2] = {{0, 0}, {0, 1}, {7, 7}, {19000, 19004}, {0, 100000}, {100000, 100000}, {99999, 100000}};
    for (size_t i = 0; i < sizeof days / sizeof *days; i++) {
        struct call x = good(), y = good();
        x.seen = days[i][0];
        x.day_number = days[i][1];
        y.day = (float)(x.day_number - x.seen);
        for (x.whole_rating = y.whole_rating = 0; x.whole_rating <= 5; y.whole_rating = ++x.whole_rating) {
            expect(state(&y) == FSRS_ACCEPTED, "a state was refused");
            expect_state("a review on a day", on_day, x, y.answer, y.answer_difficulty);
            expect(on_day(&x) == FSRS_ACCEPTED && x.answer_seen == x.day_number, "the day was not carried on");
        }
    }
    /* the card's own variables may be the places: a refused call leaves them */
    struct call x = good();
    float s = x.stability, d = x.difficulty;
    uint32_t seen = x.seen;
    expect(fsrs_next_state_on(x.w, x.w_len, s, d, seen, seen - 1, 3, &s, &d, &seen) == FSRS_EARLIER &&
           s == x.stability && d == x.difficulty && seen == x.seen, "a refused card is not as it was");
    expect(fsrs_next_state_on(x.w, x.w_len, s, d, seen, seen + 4, 3, &s, &d, &seen) == FSRS_ACCEPTED && s > x.stability &&
           seen == x.seen + 4, "a card over itself");
}

static void expect_verdict(struct call x, uint32_t verdict) {
    expect(row(&x) == FSRS_ACCEPTED && x.verdict == verdict, "a row: verdict %d and not %d", (int)x.verdict, (int)verdict);
}

/* What the formulas give is accepted, and every flipped bit is seen, in the first field that has one. */
static void rows_checked(void) {
    const float days[] = {0, 0.4f, 4, -7, 100000};
    for (size_t i = 0; i < sizeof days / sizeof *days; i++) {
        struct call x = good();
        x.day = days[i];
        for (x.whole_rating = 0; x.whole_rating <= 5; x.whole_rating++) {
            float days_to_next;
            expect(state(&x) == FSRS_ACCEPTED, "a state was refused");
            expect(fsrs_next_interval(x.w, x.w_len, x.answer, x.retention, &days_to_next) == FSRS_ACCEPTED, "an interval");
            const uint32_t ours[3] = {single_bits(x.answer), single_bits(x.answer_difficulty), single_bits(days_to_next)};
            memcpy(x.claimed, ours, sizeof ours);
            expect_verdict(x, FSRS_ROW_ACCEPTED);
            for (uint32_t field = 0; field < 3; field++) {
                for (int bit = 0; bit < 32; bit++) {
                    memcpy(x.claimed, ours, sizeof ours);
                    x.claimed[field] ^= 1u << bit;
                    expect_verdict(x, FSRS_ROW_STABILITY + field);
                    x.claimed[2] = ~ours[2]; /* a field behind it makes no difference */
                    expect_verdict(x, FSRS_ROW_STABILITY + field);
                }
            }
        }
    }
}

/* 1, 2 and 13 come before any verdict, and nothing that is claimed is refused. */
static void rows_refused(void) {
    const float bad[] = {NAN, INFINITY, -INFINITY};
    for (size_t i = 0; i < sizeof bad / sizeof *bad; i++) {
        struct call x = good();
        x.retention = bad[i];
        expect_refused("check_row", row, &x, FSRS_SCALAR);
        x = good();
        x.day = bad[i];
        expect_refused("check_row", row, &x, FSRS_SCALAR);
        x = good();
        x.difficulty = bad[i];
        expect_refused("check_row", row, &x, FSRS_SCALAR);
        x.w[20] = 1.5f;
        expect_refused("check_row", row, &x, FSRS_WEIGHT_BOX);
        x.w_len = FSRS_WEIGHTS - 1;
        expect_refused("check_row", row, &x, FSRS_WEIGHT_COUNT);
        x = good();
        for (int field = 0; field < 3; field++) {
            x.claimed[field] = single_bits(bad[i]);
        }
        expect_verdict(x, FSRS_ROW_STABILITY);
    }
}

/* Where the deck was recalled at 0.9 the stability is the interval, but for two roundings, which a power of 2 leaves out. */
static void imports(void) {
    struct call x = good(), y;
    x.ease = 1;
    expect_state("an ease of 1", sm2, x, x.day, 10);
    x.ease = 1000;
    expect_state("an ease of 1000", sm2, x, x.day, 1);
    x.day = 65536;
    expect_state("a stability that is not clamped", sm2, x, 65536, 1);
    x.day = 0x1p-13f;
    x.retention = 0.5f;
    sm2(&x);
    expect(x.answer > 0 && x.answer < 0.0001f, "a stability of %g was clamped", x.answer);
    /* an interval below 0.0001 is 0.0001 */
    x = good();
    x.day = 0.0001f;
    sm2(&x);
    const float below[] = {0, -5, -3e38f, 0x1p-149f};
    for (size_t i = 0; i < sizeof below / sizeof *below; i++) {
        y = good();
        y.day = below[i];
        expect_state("a short interval", sm2, y, x.answer, x.answer_difficulty);
    }
}

static void expect_step(const char *name, struct call x, float s, float d, float branch) {
    expect(step(&x) == FSRS_ACCEPTED, "%s: refused", name);
    expect_single(name, x.answer, s);
    expect_single(name, x.answer_difficulty, d);
    expect_single(name, x.record[FSRS_RECORD_BRANCH], branch);
    const float given[] = {x.stability, x.difficulty};
    expect(memcmp(x.record, given, sizeof given) == 0, "%s: the record has not the state as given", name);
}

/* Document 01's values to prove, 5 to 10 and 12. */
static void steps(void) {
    struct call first = good();
    first.stability = first.difficulty = 0;
    first.row = 0;
    first.rating = 0;
    expect_step("padding from (0, 0)", first, 0.0001f, 1, FSRS_BRANCH_PADDING);
    first.rating = 1;
    expect_step("first rating 1", first, first.w[0], first.w[4], FSRS_BRANCH_FIRST);
    struct call x = good();
    x.w[7] = 0;
    x.w[13] = x.w[17] = x.w[19] = 0;
    x.day = 0;
    expect_step("same day without weights 17 and 19", x, x.stability, x.difficulty, FSRS_BRANCH_SAME_DAY);
    x.day = -1;
    expect_step("day -1, rating 3", x, x.stability, x.difficulty, FSRS_BRANCH_SUCCESS);
    x.day = 100000;
    expect(step(&x) == FSRS_ACCEPTED, "day 100000 was refused");
    x.day = 1;
    x.rating = 1;
    step(&x);
    expect_single("a lapse without weight 13", x.answer, 0.0001f);
    expect_single("its branch", x.record[FSRS_RECORD_BRANCH], FSRS_BRANCH_LAPSE);
}

/* After a first review rated 1 the stability is weight 0. */
static void steps_backward(void) {
    struct call x = good();
    x.stability = x.difficulty = 0;
    x.row = 0;
    x.rating = 1;
    x.g_d = x.g_r = 0;
    x.gw[0] = 2;
    expect(step_backward(&x) == FSRS_ACCEPTED, "a first step backward was refused");
    expect_double("slot 0 of a first step", x.gw[0], 2 + x.g_s);
    for (int i = 1; i < FSRS_WEIGHTS; i++) {
        expect_double("a slot that a first step leaves", x.gw[i], i);
    }
}

static void expect_same_loss(uint32_t (*alone)(struct call *), uint32_t (*with_grad)(struct call *)) {
    struct call x = good(), y = good();
    expect(alone(&x) == FSRS_ACCEPTED && with_grad(&y) == FSRS_ACCEPTED, "a loss was refused");
    expect_double("the loss with its gradient", y.loss, x.loss);
    expect(x.loss > 0 && memcmp(x.gw, y.gw, sizeof x.gw) != 0, "nothing was worked out");
}

static void expect_nothing(const char *name, uint32_t (*call)(struct call *), struct call x) {
    static const double zeros[FSRS_WEIGHTS];
    memset(x.gw, 0, sizeof x.gw);
    expect(call(&x) == FSRS_ACCEPTED, "%s: refused", name);
    expect_double(name, x.loss, 0);
    expect(memcmp(x.gw, zeros, sizeof zeros) == 0, "%s: the gradient is not 0", name);
}

/* One card, one row, length 1, default weights, other cells zero. */
static struct call one_card(void) {
    struct call x = good();
    x.rows = x.columns = x.lengths[0] = 1;
    x.days[0] = x.ratings[0] = x.labels[0] = x.weights[0] = 0;
    put_file(&x);
    return x;
}

static void expect_same_left(const char *name, const struct call *x, const struct call *y) {
    expect_double(name, y->loss, x->loss);
    expect(memcmp(x->gw, y->gw, sizeof x->gw) == 0, "%s: another gradient", name);
    expect(memcmp(x->records, y->records, sizeof x->records) == 0, "%s: other records", name);
    expect(memcmp(x->step_grads, y->step_grads, sizeof x->step_grads) == 0, "%s: other step gradients", name);
}

/* A call without a mode, and the same in both: it has no padding. */
static void expect_modes(uint32_t (*call)(struct call *), uint32_t (*start)(struct call *), uint32_t (*end)(struct call *)) {
    struct call x = good(), y = good(), z = good();
    expect(call(&x) == FSRS_ACCEPTED && start(&y) == FSRS_ACCEPTED && end(&z) == FSRS_ACCEPTED, "a loss was refused");
    expect_same_left("at the start", &x, &y);
    expect_same_left("at the end", &x, &z);
}

static void modes(void) {
    expect_modes(batch, batch_at_start, batch_at_end);
    expect_modes(batch_grad, batch_grad_at_start, batch_grad_at_end);
    expect_modes(card, card_at_start, card_at_end);
    expect_modes(card_grad, card_grad_at_start, card_grad_at_end);
    /* a card's last rating is read at the end alone */
    struct call x = good();
    x.ratings[(ROWS - 1) * COLUMNS] = 5;
    expect(card_grad_at_start(&x) == FSRS_ACCEPTED, "a last rating was read at the start");
    expect_refused("a bad last rating", card_at_end, &x, FSRS_RATING);
    expect_refused("a bad last rating, with the gradient", card_grad_at_end, &x, FSRS_RATING);
}

static void losses(void) {
    expect_same_loss(batch, batch_grad);
    expect_same_loss(card, card_grad);
    expect_same_loss(batch_at_end, batch_grad_at_end);
    expect_same_loss(card_at_end, card_grad_at_end);
    expect_nothing("one card", card_grad, one_card());
    struct call x = good();
    memset(x.weights, 0, sizeof x.weights);
    expect_nothing("prefixes of weight 0", batch_grad, x);
    expect_nothing("cards of weight 0", card_grad, x);
    x.days[COLUMNS] = 100000;
    expect_nothing("day 100000", batch_grad, x);
}

/* ---- frozen weights */

/* Two columns of one step each, a first review rated 1 and one rated 4, and a scored end. They read weights 0, 3, 4, 5 and 20;
 * the other slots start at NaNs, each with a payload of its own. */
static struct call short_columns(uint32_t length) {
    struct call x = good();
    x.lengths[0] = x.lengths[1] = length;
    x.ratings[0] = 1;
    x.ratings[1] = 4;
    for (int i = 0; i < FSRS_WEIGHTS; i++) {
        uint64_t bits = 0xfff8000000000100 + (uint64_t)i;
        memcpy(&x.gw[i], &bits, sizeof bits);
    }
    x.gw[0] = x.gw[3] = x.gw[4] = x.gw[5] = x.gw[20] = 0.5;
    return x;
}

/* The same call, with other values in every weight and in many a cell that it does not read. */
static struct call other_unread(struct call x) {
    static const float other[FSRS_WEIGHTS] = {
        [1] = 36500, [2] = 0.0001f, [8] = -5, [11] = 10, [15] = 1, [16] = 10, [17] = 3, [19] = 1,
    };
    for (int i = 0; i < FSRS_WEIGHTS; i++) {
        if (isnan(x.gw[i])) {
            x.w[i] = other[i];
        }
    }
    for (int row = 1; row < ROWS; row++) {
        x.ratings[row * COLUMNS] = x.ratings[row * COLUMNS + 1] = 9;
    }
    for (int i = 0; i < COLUMNS; i++) {
        x.days[i] = x.days[2 * COLUMNS + i] = x.labels[2 * COLUMNS + i] = x.weights[2 * COLUMNS + i] = NAN;
    }
    return x;
}

static void expect_frozen(const char *name, uint32_t (*call)(struct call *), uint32_t length) {
    struct call x = short_columns(length), y = other_unread(x), before = x;
    expect(call(&x) == FSRS_ACCEPTED && call(&y) == FSRS_ACCEPTED, "%s: refused", name);
    expect_double(name, y.loss, x.loss);
    expect(memcmp(x.gw, y.gw, sizeof x.gw) == 0, "%s: a gradient depends on what is not read", name);
    expect(x.gw[0] != before.gw[0] && x.gw[20] != before.gw[20], "%s: nothing was worked out", name);
    for (int i = 0; i < FSRS_WEIGHTS; i++) {
        int kept = memcmp(&x.gw[i], &before.gw[i], sizeof x.gw[i]) == 0;
        expect(kept || !isnan(before.gw[i]), "%s: slot %d was moved", name, i);
    }
}

static void frozen(void) {
    expect_frozen("a prefix of one row", batch_grad, 1);
    expect_frozen("a card of two rows", card_grad, 2);
    expect_frozen("a prefix of one row, at the end", batch_grad_at_end, 1);
}

/* ---- a file's answers, and what is malformed */

static void expect_file(uint32_t kind, uint32_t (*with_grad)(struct call *)) {
    struct call x = good(), y = good();
    x.kind = kind;
    put_file(&x);
    expect(file(&x) == FSRS_ACCEPTED && with_grad(&y) == FSRS_ACCEPTED, "a file of kind %" PRIu32 ": refused", kind);
    expect_double("the loss of a file", x.loss, y.loss);
    expect(memcmp(x.gw, y.gw, sizeof x.gw) == 0, "a file of kind %" PRIu32 ": another gradient", kind);
}

/* The words from the header's start that are changed, one at a time. */
static void expect_malformed(size_t word, uint32_t value) {
    struct call x = one_card();
    put_word(x.file + 4 * word, value);
    expect_refused("a malformed file", file, &x, FSRS_FILE);
}

static void expect_length(size_t length) {
    struct call x = one_card();
    x.file_len = length;
    expect_refused("a file of another length", file, &x, FSRS_FILE);
}

static void files(void) {
    static const uint32_t offsets[] = {40, 124, 128, 132, 136, 136, 140};
    struct call x = one_card(), wanted = x;
    for (size_t i = 0; i < 7; i++) {
        put_word(wanted.file + 12 + 4 * i, offsets[i]);
        expect_malformed(3 + i, offsets[i] + 4);
        expect_malformed(3 + i, offsets[i] - 4);
    }
    expect(x.file_len == 144 && memcmp(wanted.file, x.file, 144) == 0, "this is not document 01's example");
    expect_nothing("the example", file, x);
    expect_file(1, batch_grad);
    expect_file(2, card_grad);
    expect_length(143);
    expect_length(145);
    expect_length(HEADER - 1);
    expect_length(0);
    expect_malformed(0, 0);
    expect_malformed(0, 3);
    expect_malformed(1, 513);
    expect_malformed(1, 2);
    expect_malformed(2, 2);
    expect_malformed(2, UINT32_MAX);
}

/* Files that are well formed, and refused by their loss. */
static void files_refused(void) {
    struct call x = good();
    x.kind = 1;
    x.lengths[1] = 0;
    put_file(&x);
    expect_refused("a file with an empty prefix", file, &x, FSRS_EMPTY_PREFIX);
    /* no rows, so that nothing but the lengths grows with the columns */
    x = one_card();
    x.rows = 0;
    put_file(&x);
    x.file_len += 4 * FSRS_MAX_COLUMNS;
    put_word(x.file + 8, FSRS_MAX_COLUMNS + 1);
    for (size_t i = 7; i < 10; i++) {
        put_word(x.file + 4 * i, (uint32_t)x.file_len);
    }
    expect_refused("a file of 513 columns", file, &x, FSRS_SIZES);
    /* 512 rows are the file's limit, whatever the columns */
    x.file_len = HEADER + 4 * FSRS_WEIGHTS;
    put_word(x.file + 4, FSRS_FILE_ROWS + 1);
    put_word(x.file + 8, 0);
    for (size_t i = 4; i < 10; i++) {
        put_word(x.file + 4 * i, (uint32_t)x.file_len);
    }
    expect_refused("a file of 513 rows", file, &x, FSRS_FILE);
    put_word(x.file + 4, FSRS_FILE_ROWS);
    expect_nothing("a file of 512 rows and no columns", file, x);
}

/* ---- why a card moved */

static void expect_reason(const char *name, const struct call *x, uint32_t reason, uint32_t of_s, uint32_t of_d) {
    fsrs_reason is = reason_of(x);
    expect(is.refusal == FSRS_ACCEPTED, "%s: refused by %" PRIu32, name, is.refusal);
    expect(is.reason == reason, "%s: reason %" PRIu32 " and not %" PRIu32, name, is.reason, reason);
    expect(is.stability_held == of_s && is.difficulty_held == of_d, "%s: held %" PRIu32 ", %" PRIu32, name,
           is.stability_held, is.difficulty_held);
}

static uint32_t held_at(float x, float low, float high) {
    return x < low ? FSRS_HELD_LOW : high < x ? FSRS_HELD_HIGH : FSRS_HELD_FREE;
}

static float at_end(uint32_t held, float x, float low, float high) {
    return held == FSRS_HELD_LOW ? low : held == FSRS_HELD_HIGH ? high : x;
}

/* A step's reason beside its own record; and what was held is at that end. */
static void expect_as_recorded(struct call *x) {
    fsrs_reason is = reason_of(x);
    uint32_t refusal = step(x), branch = (uint32_t)x->record[FSRS_RECORD_BRANCH], reason = branch;
    if (branch == FSRS_BRANCH_SUCCESS && x->rating != 3) {
        reason = x->rating == 2 ? FSRS_REASON_SUCCESS_HARD : FSRS_REASON_SUCCESS_EASY;
    }
    bool is_padding = branch == FSRS_BRANCH_PADDING;
    float s = is_padding ? x->stability : x->record[FSRS_RECORD_PRE_STABILITY];
    float d = is_padding ? x->difficulty : x->record[FSRS_RECORD_PRE_DIFFICULTY];
    expect(refusal == FSRS_ACCEPTED && is.refusal == FSRS_ACCEPTED && is.reason == reason &&
               is.stability_held == held_at(s, 0.0001f, 36500) && is.difficulty_held == held_at(d, 1, 10) &&
               x->answer == at_end(is.stability_held, s, 0.0001f, 36500) &&
               x->answer_difficulty == at_end(is.difficulty_held, d, 1, 10),
           "branch %" PRIu32 ", before the clamp (%g, %g): reason %" PRIu32 ", held %" PRIu32 ", %" PRIu32, branch, s, d,
           is.reason, is.stability_held, is.difficulty_held);
}

/* Every rating, on many days, from many states, at the first row and at another, with weights that lead into every branch. */
static void reasons_recorded(void) {
    const float days[] = {0, -0.0f, 4, -1, 100000}, ratings[] = {0, -0.0f, 1, 2, 3, 4};
    const float stabilities[] = {0, 0.0001f, 5, 36500, -1, 1e9f}, difficulties[] = {0, 6, 9.9f, 11};
    const struct {
        int at;
        float x;
    } moved[] = {{20, 0.5f}, {19, 0}, {17, 0}, {17, 3}, {13, 0}, {11, 10}, {6, 6}, {4, 20}};
    uint32_t met = 0;
    for (size_t i = 0; i < sizeof moved / sizeof *moved; i++) {
        struct call x = good();
        x.w[moved[i].at] = moved[i].x;
        for (int n = 0; n < 5 * 6 * 6 * 4 * 2; n++) {
            x.day = days[n % 5];
            x.rating = ratings[n / 5 % 6];
            x.stability = stabilities[n / 30 % 6];
            x.difficulty = difficulties[n / 180 % 4];
            x.row = n < 720 ? 0 : 3;
            expect_as_recorded(&x);
            met |= BIT(reason_of(&x).reason);
        }
    }
    expect(met == BIT(FSRS_REASON_SUCCESS_EASY + 1) - 1, "not every reason was met: %" PRIx32, met);
}

enum { FREE = FSRS_HELD_FREE, LOW = FSRS_HELD_LOW, HIGH = FSRS_HELD_HIGH };

/* The given state is what is held, and an end itself is not outside. */
static void padding_reasons(void) {
    const struct {
        float s, d;
        uint32_t of_s, of_d;
    } states[] = {
        {5, 6, FREE, FREE},
        {0, 0, LOW, LOW},
        {0.0001f, 1, FREE, FREE},
        {36500, 10, FREE, FREE},
        {nextafterf(0.0001f, 0), nextafterf(1, 0), LOW, LOW},
        {nextafterf(36500, INFINITY), nextafterf(10, INFINITY), HIGH, HIGH},
        {nextafterf(0.0001f, 1), nextafterf(10, 0), FREE, FREE},
        {-3e38f, 3e38f, LOW, HIGH},
        {3e38f, -0.0f, HIGH, LOW},
    };
    for (size_t i = 0; i < sizeof states / sizeof *states; i++) {
        struct call x = good();
        x.stability = states[i].s;
        x.difficulty = states[i].d;
        x.day = NAN; /* which goes unread */
        for (x.row = 0; x.row < 2; x.row++) {
            x.rating = 0;
            expect_reason("padding", &x, FSRS_REASON_PADDING, states[i].of_s, states[i].of_d);
            x.rating = -0.0f;
            expect_reason("padding of -0.0", &x, FSRS_REASON_PADDING, states[i].of_s, states[i].of_d);
        }
    }
}

/* A first stability is a weight, and so never held; what is given does not count. */
static void first_reasons(void) {
    struct call x = good();
    x.row = 0;
    x.stability = -0.0f;
    x.difficulty = 1e30f;
    x.day = INFINITY;
    x.rating = 1;
    expect_reason("a first review", &x, FSRS_REASON_FIRST, FREE, FREE);
    x.rating = 4;
    expect_reason("an easy first review", &x, FSRS_REASON_FIRST, FREE, LOW);
    const float ends[][2] = {{0, LOW}, {1, FREE}, {10, FREE}, {20, HIGH}};
    for (size_t i = 0; i < sizeof ends / sizeof *ends; i++) {
        x.rating = 1;
        x.w[4] = ends[i][0];
        x.w[0] = i % 2 ? 0.0001f : 36500;
        expect_reason("a first difficulty", &x, FSRS_REASON_FIRST, FREE, (uint32_t)ends[i][1]);
    }
    x = good();
    x.stability = 0;
    expect_reason("stability 0 at row 1", &x, FSRS_REASON_SUCCESS, FREE, FREE);
    x.stability = 5;
    x.row = 0;
    expect_reason("stability 5 at row 0", &x, FSRS_REASON_SUCCESS, FREE, FREE);
}

static void same_day_reasons(void) {
    struct call x = good();
    const float days[] = {0, -0.0f};
    for (int i = 0; i < 2; i++) {
        x = good();
        x.day = days[i];
        expect_reason("a raw multiplier below 1", &x, FSRS_REASON_SAME_DAY_ONE, FREE, FREE);
        x.rating = 4;
        expect_reason("a raw multiplier above 1", &x, FSRS_REASON_SAME_DAY_RAW, FREE, FREE);
        x.rating = 1;
        expect_reason("a raw multiplier below 1, rated 1", &x, FSRS_REASON_SAME_DAY_RAW, FREE, FREE);
        x.w[17] = x.w[19] = 0; /* the raw multiplier is exactly 1 */
        for (x.rating = 1; x.rating <= 4; x.rating++) {
            expect_reason("a raw multiplier of 1", &x, FSRS_REASON_SAME_DAY_RAW, FREE, FREE);
        }
    }
    /* 36500 times 1 is at the end, and not held there */
    x = good();
    x.day = 0;
    x.stability = 36500;
    expect_reason("the end itself", &x, FSRS_REASON_SAME_DAY_ONE, FREE, FREE);
    x.w[19] = 0;
    x.rating = 4;
    expect_reason("above the end", &x, FSRS_REASON_SAME_DAY_RAW, HIGH, FREE);
    x.rating = 1;
    x.stability = 0;
    expect_reason("below the end", &x, FSRS_REASON_SAME_DAY_RAW, LOW, FREE);
}

/* With these weights the raw value is weight 11 times the stability, and the floor the stability itself. */
static struct call lapse_of(float w11, float stability) {
    struct call x = good();
    x.w[11] = w11;
    x.w[12] = x.w[14] = x.w[17] = 0;
    x.w[13] = 1;
    x.stability = stability;
    x.rating = 1;
    expect(step(&x) == FSRS_ACCEPTED, "a lapse was refused");
    expect_single("the floor", x.record[FSRS_RECORD_BRANCH_OTHER], stability < 0.0001f ? 0.0001f : stability);
    expect_single("the raw value", x.record[FSRS_RECORD_BRANCH_RAW], w11 * (stability < 0.0001f ? 0.0001f : stability));
    return x;
}

static void lapse_reasons(void) {
    struct call x = lapse_of(1, 1);
    expect_reason("raw value and floor equal", &x, FSRS_REASON_LAPSE_RAW, FREE, FREE);
    x = lapse_of(1 + 0x1p-23f, 1);
    expect_reason("the floor one step below", &x, FSRS_REASON_LAPSE_FLOOR, FREE, FREE);
    x = lapse_of(1 - 0x1p-24f, 1);
    expect_reason("the floor one step above", &x, FSRS_REASON_LAPSE_RAW, FREE, FREE);
    /* a raw value of 0, held at the low end (document 01's eighth value) */
    x = good();
    x.w[13] = 0;
    x.rating = 1;
    x.day = 1;
    expect_reason("a lapse without weight 13", &x, FSRS_REASON_LAPSE_RAW, LOW, FREE);
    /* a floor below the low end, and one at the end itself */
    x.w[13] = 1;
    x.w[11] = 10;
    x.stability = 0;
    expect_reason("a floor below the end", &x, FSRS_REASON_LAPSE_FLOOR, LOW, FREE);
    x.w[17] = 0;
    expect_reason("a floor at the end", &x, FSRS_REASON_LAPSE_FLOOR, FREE, FREE);
}

static void success_reasons(void) {
    const uint32_t reasons[] = {FSRS_REASON_SUCCESS_HARD, FSRS_REASON_SUCCESS, FSRS_REASON_SUCCESS_EASY};
    const float days[] = {4, 0x1p-149f, -1, 100000};
    for (int i = 0; i < 12; i++) {
        struct call x = good();
        x.day = days[i % 4];
        x.rating = (float)(2 + i / 4);
        expect_reason("a success", &x, reasons[i / 4], FREE, FREE);
        x.w[15] = x.w[16] = 1; /* then all three give the same stability but for the rating */
        expect_reason("a success with weights 15 and 16 at 1", &x, reasons[i / 4], FREE, FREE);
    }
    struct call x = good();
    x.stability = x.day = 36500;
    x.difficulty = 1;
    x.rating = 4;
    expect_reason("above both ends", &x, FSRS_REASON_SUCCESS_EASY, HIGH, LOW);
    x.w[6] = 6;
    x.w[7] = 0;
    x.rating = 1;
    x.difficulty = 5;
    x.day = 0;
    expect_reason("a difficulty above its end", &x, FSRS_REASON_SAME_DAY_RAW, FREE, HIGH);
}

/* 1, 2, 13, 6 and 7, in this order, and beside them nothing but 0. */
static void reasons_refused(void) {
    struct call x = good();
    const fsrs_reason none = {0, 0, 0, 0};
    x.stability = -1;
    x.difficulty = 11;
    x.day = NAN;
    const uint32_t numbers[] = {FSRS_DAY, FSRS_RATING, FSRS_SCALAR, FSRS_WEIGHT_BOX, FSRS_WEIGHT_COUNT};
    for (int i = 0; i < 5; i++) {
        x.rating = i > 0 ? 4.5f : 4;
        x.difficulty = i > 1 ? INFINITY : 11;
        x.w[20] = i > 2 ? 1.5f : 0.5f;
        x.w_len = i > 3 ? FSRS_WEIGHTS - 1 : FSRS_WEIGHTS;
        fsrs_reason is = reason_of(&x), wanted = none;
        wanted.refusal = numbers[i];
        expect(memcmp(&is, &wanted, sizeof is) == 0, "a refused step: %" PRIu32 " %" PRIu32 " %" PRIu32 " %" PRIu32, is.refusal,
               is.reason, is.stability_held, is.difficulty_held);
    }
}

/* ---- where a loss call is at fault */

static void expect_fault(const char *name, fsrs_fault is, uint32_t refusal, uint32_t column, uint32_t row) {
    expect(is.refusal == refusal && is.column == column && is.row == row,
           "%s: %" PRIu32 " at column %" PRIu32 ", row %" PRIu32 ", not %" PRIu32 " at %" PRIu32 ", %" PRIu32, name, is.refusal,
           is.column, is.row, refusal, column, row);
}

enum {
    IN_PREFIX = 1,
    IN_CARD = 2,
    AT_START = 4,
    AT_END = 8,
    PREFIXES = IN_PREFIX | AT_START | AT_END,
    CARDS = IN_CARD | AT_START | AT_END,
    BOTH = PREFIXES | CARDS
};

/* In the kinds and modes that are named: alone, with the gradient, and of the file, which has no mode. */
static void expect_place(const char *name, struct call x, int where, uint32_t refusal, uint32_t column, uint32_t row) {
    for (int end = 0; end < 2; end++) {
        for (x.kind = 1; x.kind <= 2; x.kind++) {
            if (!(where & (end ? AT_END : AT_START)) || !(where & (x.kind == 1 ? IN_PREFIX : IN_CARD))) {
                continue;
            }
            bool is_card = x.kind == 2;
            expect_fault(name, is_card ? card_place(&x, end) : batch_place(&x, end), refusal, column, row);
            expect_fault(name, is_card ? card_grad_place(&x, end) : batch_grad_place(&x, end), refusal, column, row);
            uint32_t loss = is_card ? card_grad_in(&x, end) : batch_grad_in(&x, end);
            expect(loss == refusal, "%s: the loss is refused by %" PRIu32, name, loss);
            if (!end) {
                put_file(&x);
                expect_fault(name, fsrs_batch_file_fault(x.file, x.file_len), refusal, column, row);
            }
        }
    }
}

struct cell {
    enum { RATING, DAY, WEIGHT, LABEL, TARGET_WEIGHT, TARGET_LABEL, TARGET_DAY, LENGTH } table;
    int row, column;
};

#define NONE {RATING, -1, -1}

static void spoil(struct call *x, struct cell c) {
    int i = c.row * COLUMNS + c.column;
    switch (c.table) {
    case RATING:
        x->ratings[i] = 7;
        break;
    case DAY:
        x->days[i] = 100000.0078125f;
        break;
    case WEIGHT:
        x->weights[i] = -1;
        break;
    case LABEL:
        x->labels[i] = 1.5f;
        break;
    case TARGET_WEIGHT:
        x->weights[c.column] = NAN;
        break;
    case TARGET_LABEL:
        x->labels[c.column] = -INFINITY;
        break;
    case TARGET_DAY:
        x->target_days[c.column] = -100000.0078125f;
        break;
    case LENGTH:
        x->lengths[c.column] = 0;
    }
}

/* One bad cell, and two: in one row, in two rows, in two columns, a target behind good and bad rows. The columns have 3 and 2
 * rows. */
static const struct {
    const char *name;
    struct cell first, second;
    int where;
    uint32_t refusal, column, row;
} spoilt[] = {
    {"a rating", {RATING, 0, 0}, NONE, BOTH, FSRS_RATING, 0, 0},
    {"a rating below it", {RATING, 1, 0}, NONE, BOTH, FSRS_RATING, 0, 1},
    {"a rating of the second column", {RATING, 0, 1}, NONE, BOTH, FSRS_RATING, 1, 0},
    {"a last rating", {RATING, 2, 0}, NONE, PREFIXES, FSRS_RATING, 0, 2},
    {"a card's last rating", {RATING, 1, 1}, NONE, IN_CARD | AT_END, FSRS_RATING, 1, 1},
    {"a day", {DAY, 1, 1}, NONE, BOTH, FSRS_DAY, 1, 1},
    {"a card's last day", {DAY, 2, 0}, NONE, BOTH, FSRS_DAY, 0, 2},
    {"a weight", {WEIGHT, 1, 0}, NONE, CARDS, FSRS_REVIEW, 0, 1},
    {"a label", {LABEL, 2, 0}, NONE, CARDS, FSRS_REVIEW, 0, 2},
    {"a rating and a day of one row", {DAY, 1, 0}, {RATING, 1, 0}, BOTH, FSRS_RATING, 0, 1},
    {"a day and a weight of one row", {WEIGHT, 1, 0}, {DAY, 1, 0}, BOTH, FSRS_DAY, 0, 1},
    {"a day and a weight of a last row", {WEIGHT, 2, 0}, {DAY, 2, 0}, BOTH, FSRS_DAY, 0, 2},
    {"a weight and a label of one row", {WEIGHT, 1, 0}, {LABEL, 1, 0}, CARDS, FSRS_REVIEW, 0, 1},
    {"two rows", {RATING, 2, 0}, {DAY, 1, 0}, BOTH, FSRS_DAY, 0, 1},
    {"two rows, the weight first", {RATING, 2, 0}, {WEIGHT, 1, 0}, CARDS, FSRS_REVIEW, 0, 1},
    {"two columns", {RATING, 0, 1}, {DAY, 2, 0}, BOTH, FSRS_DAY, 0, 2},
    {"two columns of one row", {RATING, 0, 1}, {RATING, 0, 0}, BOTH, FSRS_RATING, 0, 0},
    {"a target's weight", {TARGET_WEIGHT, 0, 0}, NONE, PREFIXES, FSRS_REVIEW, 0, 3},
    {"a target's label", {TARGET_LABEL, 0, 1}, NONE, PREFIXES, FSRS_REVIEW, 1, 2},
    {"a target's day", {TARGET_DAY, 0, 1}, NONE, PREFIXES, FSRS_DAY, 1, 2},
    {"a target's label and day", {TARGET_DAY, 0, 0}, {TARGET_LABEL, 0, 0}, PREFIXES, FSRS_REVIEW, 0, 3},
    {"a target behind a bad row", {TARGET_WEIGHT, 0, 0}, {DAY, 2, 0}, PREFIXES, FSRS_DAY, 0, 2},
    {"a target before a bad column", {TARGET_DAY, 0, 0}, {RATING, 0, 1}, PREFIXES, FSRS_DAY, 0, 3},
    {"an empty prefix", {LENGTH, 0, 1}, NONE, PREFIXES, FSRS_EMPTY_PREFIX, 1, 0},
    {"an empty prefix and its target", {LENGTH, 0, 0}, {TARGET_WEIGHT, 0, 0}, PREFIXES, FSRS_EMPTY_PREFIX, 0, 0},
    {"an empty prefix behind a bad target", {LENGTH, 0, 1}, {TARGET_LABEL, 0, 0}, PREFIXES, FSRS_REVIEW, 0, 3},
    {"an empty prefix before a bad column", {LENGTH, 0, 0}, {RATING, 0, 1}, PREFIXES, FSRS_EMPTY_PREFIX, 0, 0},
};

static void faults_placed(void) {
    expect_place("a good call", good(), BOTH, FSRS_ACCEPTED, 0, 0);
    for (size_t i = 0; i < sizeof spoilt / sizeof *spoilt; i++) {
        struct call x = good();
        spoil(&x, spoilt[i].first);
        if (spoilt[i].second.row >= 0) {
            spoil(&x, spoilt[i].second);
        }
        expect_place(spoilt[i].name, x, spoilt[i].where, spoilt[i].refusal, spoilt[i].column, spoilt[i].row);
    }
}

/* What is not read is no fault: padding's day, also of -0.0, a first day, a card's first weight, what has the weight 0, what lies
 * beyond a length. */
static void faults_of_read_cells(void) {
    struct call x = good();
    x.ratings[2] = -0.0f;
    x.days[0] = x.days[1] = x.days[2] = NAN;
    x.ratings[5] = 9;
    expect_place("cells that go unread", x, BOTH, FSRS_ACCEPTED, 0, 0);
    x.days[4] = NAN;
    expect_place("a day behind padding", x, BOTH, FSRS_DAY, 0, 2);
    x = good();
    x.weights[0] = x.weights[1] = NAN;
    expect_place("a card's first weights", x, CARDS, FSRS_ACCEPTED, 0, 0);
    x = good();
    x.weights[0] = -0.0f;
    x.labels[0] = x.target_days[0] = NAN;
    x.lengths[0] = UINT32_MAX; /* cut to the rows */
    x.labels[1] = 2;
    expect_place("a target of weight -0.0", x, PREFIXES, FSRS_REVIEW, 1, 2);
    x.weights[0] = 1;
    expect_place("a target of a length that is cut", x, PREFIXES, FSRS_REVIEW, 0, 3);
    /* behind padding: rows are counted from the table's first */
    x = good();
    x.ratings[0] = x.ratings[2] = 0;
    x.days[0] = x.days[2] = x.days[4] = x.weights[2] = x.labels[2] = NAN;
    expect_place("a first review in the last row", x, IN_CARD | AT_END, FSRS_ACCEPTED, 0, 0);
    x.ratings[4] = 0.5f;
    expect_place("its rating", x, IN_CARD | IN_PREFIX | AT_END, FSRS_RATING, 0, 2);
    /* an all-padding prefix, whose target goes unread */
    x = good();
    x.ratings[0] = x.ratings[2] = x.ratings[4] = 0;
    x.weights[0] = NAN;
    expect_place("all padding", x, IN_PREFIX | AT_END, FSRS_ACCEPTED, 0, 0);
    expect_place("all padding, at the start", x, IN_PREFIX | AT_START, FSRS_REVIEW, 0, 3);
}

/* 1, 2, 5, 3 and 4 name no place, whatever cells are bad, and come before them in this order. */
static void faults_without_place(void) {
    static void (*const makers[])(struct call *) = {records_short, cells_short, slots_short, weight_beyond, few_weights};
    const uint32_t numbers[] = {FSRS_ROOM, FSRS_SIZES, FSRS_SLOT_COUNT, FSRS_WEIGHT_BOX, FSRS_WEIGHT_COUNT};
    for (int bad = 0; bad < 2; bad++) {
        struct call x = good();
        if (bad) {
            spoil(&x, (struct cell){RATING, 1, 1});
        }
        for (int i = 0; i < 5; i++) {
            makers[i](&x);
            for (int end = 0; end < 2; end++) {
                expect_fault("of prefixes, with the gradient", batch_grad_place(&x, end), numbers[i], 0, 0);
                expect_fault("of cards, with the gradient", card_grad_place(&x, end), numbers[i], 0, 0);
                if (i == 1 || i > 2) {
                    expect_fault("of prefixes", batch_place(&x, end), numbers[i], 0, 0);
                    expect_fault("of cards", card_place(&x, end), numbers[i], 0, 0);
                }
            }
        }
    }
    struct call x = good();
    spoil(&x, (struct cell){RATING, 1, 0});
    x.step_grads_len = ROWS - 1;
    expect_fault("a step gradient too few", card_grad_place(&x, false), FSRS_ROOM, 0, 0);
    x.step_grads_len = ROWS;
    x.records_len = SIZE_MAX;
    expect_fault("room for all", card_grad_place(&x, false), FSRS_RATING, 0, 1);
    x.records_len = FSRS_RECORD * ROWS;
    put_file(&x);
    x.file_len--;
    expect_fault("a malformed file", fsrs_batch_file_fault(x.file, x.file_len), FSRS_FILE, 0, 0);
    x.w[20] = 1.5f;
    put_file(&x);
    expect_fault("a file with a bad weight", fsrs_batch_file_fault(x.file, x.file_len), FSRS_WEIGHT_BOX, 0, 0);
}

int main(void) {
    refusals();
    first_states_refused();
    days_refused();
    rows_refused();
    imports_refused();
    penalties_refused();
    penalties();
    recalls_refused();
    recalls();
    long_recalls();
    kernels();
    kernels_refused();
    formulas();
    first_states();
    days_carried();
    rows_checked();
    imports();
    steps();
    steps_backward();
    losses();
    modes();
    frozen();
    files();
    files_refused();
    reasons_recorded();
    padding_reasons();
    first_reasons();
    same_day_reasons();
    lapse_reasons();
    success_reasons();
    reasons_refused();
    faults_placed();
    faults_of_read_cells();
    faults_without_place();
    return finish();
}
