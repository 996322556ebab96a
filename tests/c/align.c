/* The losses of histories that stand at the end of their columns (fsrs_batch_loss_in and its like), on pseudo-random decks,
 * beside the functions that know no such mode: at the start both leave the same bits; at the end a deck has the loss and the
 * gradient of the deck that is moved to the start; what is not read does not count, and what is read is checked; a refused
 * call writes nothing, and its first bad cell is named, in both modes. */
#include "../../include/fsrs6.h"
#include "check.h"

enum { ROWS = 6, COLUMNS = 3, CELLS = ROWS * COLUMNS, RECORDS = FSRS_RECORD * ROWS, ROUNDS = 400 };

/* What a call is given. Of the scored reviews a card's stand in tables, a prefix's one to a column. */
struct deck {
    bool is_card;
    uint32_t columns, lengths[COLUMNS];
    float days[CELLS], ratings[CELLS], labels[CELLS], weights[CELLS];
    float target_days[COLUMNS], target_labels[COLUMNS], target_weights[COLUMNS];
};

/* What it leaves; no bits lie between its parts. */
struct left {
    uint64_t refusal;
    double loss, gw[FSRS_WEIGHTS], step_grads[ROWS];
    float records[RECORDS];
};

static float w[FSRS_WEIGHTS];

/* ---- the functions: with a mode, or those without one */

enum mode { START, END, NONE };

static const struct left lent = {.loss = 7, .gw = {1, -2, 3}, .step_grads = {4, 5, -6}, .records = {8, -9}};

#define TABLES w, FSRS_WEIGHTS, x->days, CELLS, x->ratings, CELLS, ROWS, x->columns, x->lengths, COLUMNS
#define TARGETS x->target_days, COLUMNS, x->target_labels, COLUMNS, x->target_weights, COLUMNS
#define REVIEWS x->labels, CELLS, x->weights, CELLS
#define LENT y.gw, FSRS_WEIGHTS, y.records, RECORDS
#define STEPS y.step_grads, ROWS

static struct left with_grad(const struct deck *x, enum mode mode) {
    struct left y = lent;
    if (mode == NONE) {
        y.refusal = x->is_card ? fsrs_card_loss_and_grad(TABLES, REVIEWS, LENT, STEPS, &y.loss)
                               : fsrs_batch_loss_and_grad(TABLES, TARGETS, LENT, &y.loss);
    } else {
        y.refusal = x->is_card ? fsrs_card_loss_and_grad_in(mode == END, TABLES, REVIEWS, LENT, STEPS, &y.loss)
                               : fsrs_batch_loss_and_grad_in(mode == END, TABLES, TARGETS, LENT, &y.loss);
    }
    return y;
}

static struct left alone(const struct deck *x, enum mode mode) {
    struct left y = lent;
    if (mode == NONE) {
        y.refusal = x->is_card ? fsrs_card_loss(TABLES, REVIEWS, &y.loss) : fsrs_batch_loss(TABLES, TARGETS, &y.loss);
    } else {
        y.refusal = x->is_card ? fsrs_card_loss_in(mode == END, TABLES, REVIEWS, &y.loss)
                               : fsrs_batch_loss_in(mode == END, TABLES, TARGETS, &y.loss);
    }
    return y;
}

static fsrs_fault fault_of(const struct deck *x, bool end) {
    return x->is_card ? fsrs_card_loss_fault(end, TABLES, REVIEWS) : fsrs_batch_loss_fault(end, TABLES, TARGETS);
}

static fsrs_fault grad_fault_of(const struct deck *x, bool end) {
    return x->is_card ? fsrs_card_loss_and_grad_fault(end, TABLES, REVIEWS, FSRS_WEIGHTS, RECORDS, ROWS)
                      : fsrs_batch_loss_and_grad_fault(end, TABLES, TARGETS, FSRS_WEIGHTS, RECORDS);
}

static bool is_same(const void *x, const void *y, size_t size) {
    return memcmp(x, y, size) == 0;
}

/* Both functions: a refused call writes nothing, an accepted one gives the same loss alone. */
static struct left called(const struct deck *x, enum mode mode) {
    struct left y = with_grad(x, mode), z = alone(x, mode), kept = lent;
    kept.refusal = y.refusal;
    expect(y.refusal == z.refusal && is_same(&y.loss, &z.loss, sizeof y.loss), "the loss alone is another");
    expect(y.refusal == 0 || (is_same(&y, &kept, sizeof y) && is_same(&z, &kept, sizeof z)), "refused, and written");
    return y;
}

/* ---- decks */

static uint64_t seed = 1;

static uint32_t below(uint32_t n) {
    seed = seed * 6364136223846793005 + 1442695040888963407;
    return (uint32_t)(seed >> 33) % n;
}

static int cell(const struct deck *x, uint32_t row, uint32_t column) {
    return (int)(row * x->columns + column);
}

/* The first row that is no padding, or the length. */
static uint32_t first(const struct deck *x, uint32_t column) {
    uint32_t row = 0;
    while (row < x->lengths[column] && x->ratings[cell(x, row, column)] == 0) {
        row++;
    }
    return row;
}

static float padding(void) {
    return below(2) ? 0 : -0.0f;
}

static void fill(struct deck *x, uint32_t column) {
    uint32_t n = x->lengths[column], begin = below(3) ? below(n + 1) : below(2) * n;
    for (uint32_t row = 0; row < ROWS; row++) {
        int i = cell(x, row, column);
        x->ratings[i] = row < begin || (row > begin && below(4) == 0) ? padding() : (float)(1 + below(4));
        x->days[i] = (float)below(20);
        x->weights[i] = (float)below(4) / 2;
        x->labels[i] = (float)below(2);
    }
    x->target_days[column] = (float)(1 + below(20));
    x->target_labels[column] = (float)below(2);
    x->target_weights[column] = (float)below(3);
}

/* Everything in it is good, also what goes unread. */
static struct deck some_deck(void) {
    struct deck x = {.is_card = below(2), .columns = 1 + below(COLUMNS)};
    for (uint32_t column = 0; column < x.columns; column++) {
        x.lengths[column] = x.is_card ? below(ROWS + 1) : 1 + below(ROWS);
        fill(&x, column);
    }
    return x;
}

/* A column without the padding in front of it. In a card all other padding has the weight 0; a prefix that is all padding is
 * one row of it, with a target of the weight 0. */
static void move(struct deck *x, uint32_t column) {
    uint32_t by = first(x, column), n = x->lengths[column] -= by;
    for (uint32_t row = 0; row < n; row++) {
        int i = cell(x, row, column), j = cell(x, row + by, column);
        x->days[i] = x->days[j];
        x->ratings[i] = x->ratings[j];
        x->labels[i] = x->labels[j];
        x->weights[i] = x->ratings[j] == 0 ? 0 : x->weights[j];
    }
    if (!x->is_card && n == 0) {
        x->lengths[column] = 1;
        x->target_weights[column] = 0;
    }
}

static struct deck at_start(struct deck x) {
    for (uint32_t column = 0; column < x.columns; column++) {
        move(&x, column);
    }
    return x;
}

/* ---- what is read at the end: a cell by the table it stands in */

enum table { RATING, DAY, WEIGHT, LABEL, TARGET_WEIGHT, TARGET_LABEL, TARGET_DAY, TABLES_OF_A_DECK };

static const uint32_t refusals[TABLES_OF_A_DECK] = {
    FSRS_RATING, FSRS_DAY, FSRS_REVIEW, FSRS_REVIEW, FSRS_REVIEW, FSRS_REVIEW, FSRS_DAY,
};

static float *at(struct deck *x, enum table table, uint32_t row, uint32_t column) {
    float *const tables[] = {x->ratings,        x->days,          x->weights,    x->labels,
                             x->target_weights, x->target_labels, x->target_days};
    return tables[table] + (table < TARGET_WEIGHT ? cell(x, row, column) : (int)column);
}

static bool is_target_read(const struct deck *x, enum table table, uint32_t column) {
    if (x->is_card || first(x, column) == x->lengths[column]) {
        return false;
    }
    return table == TARGET_WEIGHT || x->target_weights[column] != 0;
}

static bool is_read(const struct deck *x, enum table table, uint32_t row, uint32_t column) {
    int i = cell(x, row, column);
    bool is_last = x->is_card && row + 1 == x->lengths[column];
    bool is_later = row < x->lengths[column] && row > first(x, column) && x->ratings[i] != 0;
    switch (table) {
    case RATING:
        return row < x->lengths[column];
    case DAY:
        return is_later && (!is_last || x->weights[i] != 0);
    case WEIGHT:
        return x->is_card && is_later;
    case LABEL:
        return x->is_card && is_later && x->weights[i] != 0;
    default:
        return is_target_read(x, table, column);
    }
}

static float bad(enum table table) {
    const float any[] = {NAN, INFINITY, -INFINITY, -100000.0078125f, table == RATING ? 5 : 1000000.0625f};
    return any[below(sizeof any / sizeof *any)];
}

/* Bad numbers in every cell that goes unread. */
static struct deck spoiled(struct deck x) {
    struct deck y = x;
    for (uint32_t column = 0; column < x.columns; column++) {
        for (uint32_t row = 0; row < ROWS; row++) {
            for (enum table table = 0; table < TABLES_OF_A_DECK; table++) {
                if (!is_read(&x, table, row, column)) {
                    *at(&y, table, row, column) = bad(table);
                }
            }
        }
    }
    return y;
}

/* ---- what has to hold */

static void same_at_start(const struct deck *x) {
    struct left y = called(x, START), z = called(x, NONE);
    expect(is_same(&y, &z, sizeof y), "at the start: another answer than without a mode");
}

static void same_as_moved(const struct deck *x) {
    struct deck moved = at_start(*x);
    struct left y = called(x, END), z = called(&moved, NONE);
    expect(y.refusal == 0 && z.refusal == 0, "refused: %d, %d", (int)y.refusal, (int)z.refusal);
    expect(is_same(&y.loss, &z.loss, sizeof y.loss), "another loss than at the start");
    expect(is_same(y.gw, z.gw, sizeof y.gw), "another gradient than at the start");
}

static void expect_record(const float *records, uint32_t row, const float *want) {
    for (int f = 0; f < FSRS_RECORD; f++) {
        expect_single("a record", records[f * ROWS + (int)row], want[f]);
    }
}

/* The rows of a column alone: padding from (0, 0) in front of its first review, then those of the column that is moved. */
static void rows_moved(struct deck x) {
    x.columns = 1;
    struct deck moved = at_start(x);
    struct left y = called(&x, END), z = called(&moved, NONE);
    uint32_t by = first(&x, 0), n = x.lengths[0], steps = x.is_card && n > 0 ? n - 1 : n, scored = x.is_card ? n : 0;
    for (uint32_t row = 0; row < n; row++) {
        float want[FSRS_RECORD] = {0, 0, 0, x.ratings[row], 0, 0.0001f, 1};
        for (int f = 0; row >= by && f < FSRS_RECORD; f++) {
            want[f] = z.records[f * ROWS + (int)(row - by)];
        }
        if (row < steps) {
            expect_record(y.records, row, want);
        }
        if (row < scored) {
            expect_double("a step gradient", y.step_grads[row], row < by ? 0 : z.step_grads[row - by]);
        }
    }
    for (uint32_t row = scored; row < ROWS; row++) {
        expect_double("a step gradient behind the column", y.step_grads[row], lent.step_grads[row]);
    }
}

static void unread(const struct deck *x) {
    struct deck other = spoiled(*x);
    struct left y = called(x, END), z = called(&other, END);
    expect(is_same(&y, &z, sizeof y), "what is not read counts");
}

static void every_read(const struct deck *x) {
    for (uint32_t column = 0; column < x->columns; column++) {
        for (uint32_t row = 0; row < ROWS; row++) {
            for (enum table table = 0; table < TABLES_OF_A_DECK; table++) {
                struct deck y = *x;
                *at(&y, table, row, column) = bad(table);
                bool is_checked = is_read(x, table, row, column);
                uint32_t is = called(&y, END).refusal, want = is_checked ? refusals[table] : FSRS_ACCEPTED;
                expect(is == want, "table %d, row %d of a %s: %d, not %d", (int)table, (int)row,
                       x->is_card ? "card" : "prefix", (int)is, (int)want);
                same_at_start(&y);
            }
        }
    }
}

/* ---- the first bad cell */

static bool is_read_at_start(const struct deck *x, enum table table, uint32_t row, uint32_t column) {
    uint32_t n = x->lengths[column];
    int i = cell(x, row, column);
    bool is_last = x->is_card && row + 1 == n, is_scored = x->is_card && row > 0 && row < n;
    switch (table) {
    case RATING:
        return row < n && !is_last;
    case DAY:
        return row > 0 && row < n && (is_last ? x->weights[i] != 0 : x->ratings[i] != 0);
    case WEIGHT:
        return is_scored;
    case LABEL:
        return is_scored && x->weights[i] != 0;
    default:
        return !x->is_card && (table == TARGET_WEIGHT || x->target_weights[column] != 0);
    }
}

static bool is_bad(enum table table, float x) {
    switch (refusals[table]) {
    case FSRS_RATING:
        return !(x == 0 || x == 1 || x == 2 || x == 3 || x == 4);
    case FSRS_DAY:
        return !(x >= -100000 && x <= 100000);
    default:
        return !(x >= 0 && x <= (table == LABEL || table == TARGET_LABEL ? 1 : 1000000));
    }
}

/* Columns, and of each its rows, cell by cell, and then its target: the first that is read and bad. */
static fsrs_fault first_fault(struct deck *x, bool end) {
    const fsrs_fault accepted = {0, 0, 0};
    for (uint32_t column = 0; column < x->columns; column++) {
        uint32_t n = x->lengths[column];
        if (!x->is_card && n == 0) {
            return (fsrs_fault){FSRS_EMPTY_PREFIX, column, 0};
        }
        for (uint32_t row = 0; row <= n; row++) {
            enum table from = row < n ? RATING : TARGET_WEIGHT, to = row < n ? TARGET_WEIGHT : TABLES_OF_A_DECK;
            for (enum table table = from; table < to; table++) {
                bool reads = end ? is_read(x, table, row, column) : is_read_at_start(x, table, row, column);
                if (reads && is_bad(table, *at(x, table, row, column))) {
                    return (fsrs_fault){refusals[table], column, row};
                }
            }
        }
    }
    return accepted;
}

static void expect_fault(const char *name, fsrs_fault is, fsrs_fault want) {
    expect(is.refusal == want.refusal && is.column == want.column && is.row == want.row,
           "%s: %d at column %d, row %d, not %d at %d, %d", name, (int)is.refusal, (int)is.column, (int)is.row,
           (int)want.refusal, (int)want.column, (int)want.row);
}

static uint32_t met[2][FSRS_EMPTY_PREFIX + 1];

/* Some bad cells, and an empty column now and then; a length above the rows is cut to them. */
static void faults(struct deck x) {
    for (uint32_t i = below(4); i > 0; i--) {
        enum table table = (enum table)below(TABLES_OF_A_DECK);
        *at(&x, table, below(ROWS), below(x.columns)) = bad(table);
    }
    if (below(8) == 0) {
        x.lengths[below(x.columns)] = 0;
    }
    struct deck over = x;
    for (uint32_t column = 0; column < x.columns; column++) {
        over.lengths[column] = x.lengths[column] == ROWS && below(2) ? ROWS + 1 + below(5) : x.lengths[column];
    }
    for (int end = 0; end < 2; end++) {
        fsrs_fault want = first_fault(&x, end);
        expect_fault("a fault", fault_of(&over, end), want);
        expect_fault("a fault, with the gradient", grad_fault_of(&over, end), want);
        expect(called(&over, end ? END : START).refusal == want.refusal, "the loss is refused by another number");
        met[end][want.refusal]++;
    }
}

static void many_faults(void) {
    for (int i = 0; i < 5 * ROUNDS; i++) {
        faults(some_deck());
    }
    for (int end = 0; end < 2; end++) {
        for (uint32_t number = FSRS_RATING; number <= FSRS_EMPTY_PREFIX; number++) {
            expect(met[end][number] > 50 && met[end][0] > 50, "refusal %d was met %d times", (int)number,
                   (int)met[end][number]);
        }
    }
}

/* ---- by hand */

/* One card of three rows: a first review behind padding, and a last one with this rating. */
static struct deck behind_padding(float last) {
    return (struct deck){.is_card = true, .columns = 1, .lengths = {3}, .days = {NAN, NAN, 4}, .ratings = {0, 3, last},
                         .labels = {NAN, NAN, 1}, .weights = {NAN, NAN, 1}};
}

static void last_ratings(void) {
    const float ratings[] = {5, -1, 0.5f, NAN, INFINITY};
    for (size_t i = 0; i < sizeof ratings / sizeof *ratings; i++) {
        struct deck x = behind_padding(ratings[i]);
        expect(called(&x, END).refusal == FSRS_RATING, "a bad last rating was not refused at the end");
        x.weights[1] = x.days[1] = 0;
        expect(called(&x, START).refusal == FSRS_ACCEPTED, "a last rating was read at the start");
    }
    struct deck x = behind_padding(3), y = behind_padding(-0.0f);
    expect(called(&x, END).loss > 0, "a review behind padding was not scored");
    y.days[2] = y.labels[2] = y.weights[2] = NAN;
    expect_double("a last row of padding", called(&y, END).loss, 0);
    y.ratings[1] = 0;
    y.ratings[2] = 4;
    expect_double("a last row that is the first review", called(&y, END).loss, 0);
}

static void all_padding(void) {
    struct deck x = {.columns = 2,
                     .lengths = {3, 2},
                     .days = {NAN, NAN, NAN, NAN, NAN},
                     .ratings = {0, -0.0f, 0, 0, -0.0f, 9},
                     .target_days = {NAN, NAN},
                     .target_labels = {NAN, NAN},
                     .target_weights = {NAN, NAN}};
    struct left y = called(&x, END);
    expect(y.refusal == FSRS_ACCEPTED, "prefixes of padding alone: refused");
    expect_double("their loss", y.loss, 0);
    expect(is_same(y.gw, lent.gw, sizeof y.gw), "their gradient is not 0");
    expect(called(&x, START).refusal == FSRS_REVIEW, "their targets were not read at the start");
    x.lengths[1] = 0;
    expect(called(&x, END).refusal == FSRS_EMPTY_PREFIX, "a prefix of length 0 at the end");
}

int main(void) {
    float none = 0;
    expect(fsrs_check_and_fill_parameters(&none, 0, w) == FSRS_ACCEPTED, "the default weights");
    last_ratings();
    all_padding();
    for (int i = 0; i < ROUNDS; i++) {
        struct deck x = some_deck();
        same_at_start(&x);
        same_as_moved(&x);
        rows_moved(x);
        unread(&x);
        if (i % 10 == 0) {
            every_read(&x);
        }
    }
    many_faults();
    return finish();
}
