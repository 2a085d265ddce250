/* Tests the walk of include/seal_register.h.
 *
 *     row_walk                          the edges, a line for each test
 *     row_walk trial LINES <RECORDS     walks back over lists of commits, and prints how many walks that took
 *
 * RECORDS are the calls that the program history_trial is run on, and LINES what the second implementation answers to
 * them (reference/, `history_vectors`). After each accepted call, walks over the newest of the commits that stand are
 * held to the seals that LINES has just before these, past every release among them. The status is 0 where there was no
 * fault, some walk was made, and some went past a release.
 */
#include "count.h"
#include "trial.h"
#include "walk.h"

#include <stdio.h>
#include <stdlib.h>
#include <string.h>

/* A row of a line: as many numbers as the degree says, from the highest power down, with a comma between. */
static char *read_row(char *at, uint64_t degree, uint64_t row[3]) {
    for (uint64_t i = degree; i > 0 && i <= 3; i--) {
        row[i - 1] = strtoull(at, &at, 16);
        at += *at == ',';
    }
    return at;
}

/* The seal of a line: after the count and the released step the degree, u and v with a colon between. */
static struct seal_class seal_in(char *at) {
    struct seal_class a = neutral;
    at = strrchr(at, ' ');
    if (at == NULL)
        return a;
    a.degree = strtoull(at, &at, 10);
    at = read_row(at + 1, a.degree, a.u);
    read_row(at + 1, a.degree, a.v);
    return a;
}

/* The commits that stand, the oldest first: each with its class and the seal just before it. */
static struct seal_class operations[LIMIT], seals[LIMIT];
static size_t standing;

/* How many of them stood at the last release, and the walks that went past it. */
static size_t released;
static unsigned long past;

/* Walks over the k newest. */
static void walk_back(struct seal_curve curve, struct seal_class last, size_t k) {
    static struct seal_class row[LIMIT];
    for (size_t i = 0; i < k; i++)
        row[i] = operations[standing - 1 - i];
    answers(curve, last, row, k, k == 0 ? last : seals[standing - k]);
    past += standing - k < released;
}

/* Every walk over few classes, and over all where they are as many as a power of 2. */
static void walk_all(struct seal_curve curve, struct seal_class last) {
    for (size_t k = 0; k <= standing && k <= 3; k++)
        walk_back(curve, last, k);
    if (standing > 3 && (standing & (standing - 1)) == 0)
        walk_back(curve, last, standing);
}

/* What an accepted call leaves standing: an undo takes the newest commit back where it has its class. */
static void stands(int commit, struct seal_class operation, struct seal_class before) {
    if (commit && standing < LIMIT) {
        operations[standing] = operation;
        seals[standing] = before;
        standing++;
    } else if (!commit && standing > 0 && same_class(operations[standing - 1], operation)) {
        standing--;
    } else {
        standing = 0;
    }
    if (standing < released)
        released = 0;
}

static int trial(FILE *lines) {
    uint8_t record[RECORD];
    char line[400];
    struct seal_register r = {{0, 0, 0, 0}, 0, neutral, 0};
    while (fread(record, 1, RECORD, stdin) == RECORD) {
        if (record[0] == TRIAL_START) {
            r = register_in(record);
            standing = released = 0;
            continue;
        }
        if (fgets(line, sizeof line, lines) == NULL)
            return 0;
        int call = record[0];
        if ((call != TRIAL_COMMIT && call != TRIAL_UNDO && call != TRIAL_RELEASE) || strncmp(line, "refused", 7) == 0)
            continue;
        if (call == TRIAL_RELEASE)
            released = standing;
        else
            stands(call == TRIAL_COMMIT, operation_in(record), r.seal);
        r.seal = seal_in(line);
        walk_all(r.curve, r.seal);
    }
    return fgets(line, sizeof line, lines) == NULL;
}

int main(int words, char **word) {
    make_room();
    if (words == 1)
        return test_edges() ? 0 : 1;
    FILE *lines = words == 3 && strcmp(word[1], "trial") == 0 ? fopen(word[2], "r") : NULL;
    if (lines == NULL)
        return 2;
    int whole = trial(lines);
    fclose(lines);
    printf("%lu walks, %lu past a release%s\n", calls(), past, whole ? "" : ", and other lines than calls");
    return whole && calls() > 0 && past > 0 && faults() == 0 ? 0 : 1;
}
