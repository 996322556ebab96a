/* The path of a card's memory, read from the columns that a loss with its gradient leaves in `records`: prints each review's
 * day, rating and branch, the state before it, what was remembered when it came, and the stability that it gave.
 *
 *     cc examples/path.c -Iinclude target/lib/libfsrs6.a -o path && ./path */
#include <stdio.h>
#include "fsrs6.h"

enum { ROWS = 7, CELLS = FSRS_RECORD * ROWS };

/* The second card of examples/deck.txt as a prefix: the days since the review before, and the ratings. A prefix steps on all
 * its rows; the review that is scored comes ten days after them. */
static const float days[ROWS] = {0, 0, 1, 4, 0, 2, 6}, ratings[ROWS] = {1, 3, 3, 1, 2, 3, 3};
static const float target = 10, label = 1, weight = 1;
static const uint32_t length = ROWS;

static const char *const names[] = {
    "padding", "first", "same day", "same day, 1", "lapse", "lapse, floored", "success",
};

int main(void) {
    float none[1] = {0}, w[FSRS_WEIGHTS], records[CELLS], day = 0;
    double gw[FSRS_WEIGHTS] = {0}, loss;
    uint32_t refusal = fsrs_check_and_fill_parameters(none, 0, w); /* the default weights */
    if (refusal == FSRS_ACCEPTED) {
        refusal = fsrs_batch_loss_and_grad(w, FSRS_WEIGHTS, days, ROWS, ratings, ROWS, ROWS, 1, &length, 1, &target, 1,
                                           &label, 1, &weight, 1, gw, FSRS_WEIGHTS, records, CELLS, &loss);
    }
    if (refusal != FSRS_ACCEPTED) {
        fprintf(stderr, "refused: %s\n", fsrs_refusal_text(refusal));
        return 1;
    }
    /* each column is a plain array, a cell for each row */
    const float *stability = records + fsrs_record_cell(CELLS, FSRS_RECORD_STABILITY, 0);
    const float *difficulty = records + fsrs_record_cell(CELLS, FSRS_RECORD_DIFFICULTY, 0);
    const float *recalled = records + fsrs_record_cell(CELLS, FSRS_RECORD_RETRIEVABILITY, 0);
    const float *given = records + fsrs_record_cell(CELLS, FSRS_RECORD_PRE_STABILITY, 0); /* before its last clamp */
    const float *branch = records + fsrs_record_cell(CELLS, FSRS_RECORD_BRANCH, 0);
    printf("day  rating  branch          stability  difficulty  retrievability     gave\n");
    for (int i = 0; i < ROWS; i++) {
        day += days[i];
        printf("%3g  %6g  %-14s %10.4f  %10.4f  %14.4f %8.4f\n", day, ratings[i], names[(int)branch[i]], stability[i],
               difficulty[i], recalled[i], given[i]);
    }
    return 0;
}
