/* Takes over a deck from SM-2: prints for each card its stability, its difficulty and the days to its next review, or why
 * it is refused.
 *
 *     cc examples/sm2.c -Iinclude target/lib/libfsrs6.a -o sm2
 *     ./sm2 [SM2_RETENTION [DESIRED_RETENTION]] <examples/sm2.txt
 *
 * The first retention is the share of the old deck's reviews that were recalled, the second what is wanted from now on; 0.9
 * where none is given. A line of the deck is a card, its ease factor and its interval in days; what stands behind a # is a
 * remark. A line that is neither is told with its number, and the status is then 1. */
#include <ctype.h>
#include <stdio.h>
#include <stdlib.h>
#include <string.h>
#include "fsrs6.h"

enum { LINE = 256 };

static float w[FSRS_WEIGHTS];

/* A number, and what follows it: NULL where there is none, or it is not a word of its own. */
static const char *read_number(const char *text, float *x) {
    char *end;
    *x = strtof(text, &end);
    return end == text || (*end && !isspace((unsigned char)*end)) ? NULL : end;
}

static int is_blank(const char *text) {
    return text[strspn(text, " \t\r")] == '\0';
}

/* A line less its remark; 0 at the end of the deck. */
static int read_line(char line[LINE]) {
    size_t n = 0;
    int c = getchar(), is_remark = 0;
    if (c == EOF) {
        return 0;
    }
    for (; c != EOF && c != '\n'; c = getchar()) {
        is_remark |= c == '#';
        if (!is_remark && n < LINE - 1) {
            line[n++] = (char)c;
        }
    }
    line[n] = '\0';
    if (n == LINE - 1) {
        line[0] = '?'; /* too long for a card */
    }
    return 1;
}

static const char *reason(uint32_t refusal) {
    switch (refusal) {
    case FSRS_SCALAR:
        return "a number is not finite";
    case FSRS_IMPORT:
        return "no finite stability or difficulty comes of these numbers";
    default:
        return "the weights";
    }
}

static void show(float ease, float interval, float sm2_retention, float desired_retention) {
    float stability, difficulty, days;
    uint32_t refusal = fsrs_memory_state_from_sm2(w, FSRS_WEIGHTS, ease, interval, sm2_retention, &stability, &difficulty);
    if (refusal == FSRS_ACCEPTED) {
        refusal = fsrs_next_interval(w, FSRS_WEIGHTS, stability, desired_retention, &days);
    }
    if (refusal == FSRS_ACCEPTED) {
        printf("stability %g, difficulty %g, see it again in %g days\n", stability, difficulty, days);
    } else {
        printf("refused: %s\n", reason(refusal));
    }
}

int main(int argc, char **argv) {
    char line[LINE];
    float none = 0, sm2_retention = 0.9f, desired_retention = 0.9f, ease, interval;
    int status = 0;
    if (argc > 3 || (argc > 1 && !read_number(argv[1], &sm2_retention)) ||
        (argc > 2 && !read_number(argv[2], &desired_retention))) {
        fputs("usage: sm2 [SM2_RETENTION [DESIRED_RETENTION]] <DECK\n", stderr);
        return 2;
    }
    if (fsrs_check_and_fill_parameters(&none, 0, w) != FSRS_ACCEPTED) { /* the default weights */
        return 2;
    }
    for (unsigned long number = 1; read_line(line); number++) {
        if (is_blank(line)) {
            continue;
        }
        const char *rest = read_number(line, &ease);
        rest = rest ? read_number(rest, &interval) : NULL;
        if (rest && is_blank(rest)) {
            printf("line %lu: ", number);
            show(ease, interval, sm2_retention, desired_retention);
        } else {
            fprintf(stderr, "line %lu: not an ease factor and an interval\n", number);
            status = 1;
        }
    }
    return status;
}
