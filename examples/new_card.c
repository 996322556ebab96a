/* A new card: its first review and three more. Prints the stability and the difficulty that each leaves, and the days after
 * which to show the card again.
 *
 *     cc examples/new_card.c -Iinclude target/lib/libfsrs6.a -o new_card && ./new_card */
#include <stdio.h>
#include "fsrs6.h"

/* The days since the review before, and the rating: 1 forgotten, 2 hard, 3 good, 4 easy. */
static const struct {
    float days;
    uint32_t rating;
} reviews[] = {{0, 3}, {2, 3}, {11, 1}, {1, 3}};

int main(void) {
    float none[1] = {0}, w[FSRS_WEIGHTS], stability = 0, difficulty = 0, interval = 0;
    uint32_t refusal = fsrs_check_and_fill_parameters(none, 0, w); /* the default weights */
    for (size_t i = 0; i < sizeof reviews / sizeof *reviews && refusal == FSRS_ACCEPTED; i++) {
        if (i == 0) {
            refusal = fsrs_first_state(w, FSRS_WEIGHTS, reviews[i].rating, &stability, &difficulty);
        } else {
            refusal = fsrs_next_state(w, FSRS_WEIGHTS, stability, difficulty, reviews[i].days, reviews[i].rating,
                                      &stability, &difficulty);
        }
        if (refusal == FSRS_ACCEPTED) {
            refusal = fsrs_next_interval(w, FSRS_WEIGHTS, stability, 0.9f, &interval);
        }
        if (refusal == FSRS_ACCEPTED) {
            printf("rated %u: stability %g, difficulty %g, see it again in %g days\n", (unsigned)reviews[i].rating,
                   stability, difficulty, interval);
        }
    }
    if (refusal != FSRS_ACCEPTED) {
        fprintf(stderr, "refused: %s\n", fsrs_refusal_text(refusal));
    }
    return refusal != FSRS_ACCEPTED;
}
