#include <stdio.h>
#include "fsrs6.h"

int main(void) {
    const uint32_t reviews[][2] = {{19002, 3}, {19013, 1}, {19013, 3}, {19012, 3}}; /* the day, and the rating from 1 to 4 */
    float none[1] = {0}, w[FSRS_WEIGHTS], stability, difficulty, days;
    uint32_t seen = 19000; /* when the card was last seen: any day may be day 0 */
    if (fsrs_check_and_fill_parameters(none, 0, w) != FSRS_ACCEPTED) return 1; /* the default weights */
    if (fsrs_first_state(w, FSRS_WEIGHTS, 3, &stability, &difficulty) != FSRS_ACCEPTED) return 1; /* a new card, rated 3 */
    for (int i = 0; i < 4; i++) {
        uint32_t refusal = fsrs_next_state_on(w, FSRS_WEIGHTS, stability, difficulty, seen, reviews[i][0], reviews[i][1],
                                              &stability, &difficulty, &seen);
        if (refusal != FSRS_ACCEPTED) {
            printf("refused: %u, %s\n", (unsigned)refusal, fsrs_refusal_text(refusal)); /* the card is as it was */
        } else if (fsrs_next_interval(w, FSRS_WEIGHTS, stability, 0.9f, &days) == FSRS_ACCEPTED) {
            unsigned due = (unsigned)(seen + fsrs_round_f32(days < 1 ? 1 : days));
            printf("seen on day %u, stability %g: see it again on day %u\n", (unsigned)seen, stability, due);
        }
    }
}
