/* Archives whose seals are worked out in numbers, and what is wrong in others. */
#ifndef MODELS_H
#define MODELS_H

#include "check.h"

#define MOST_PAIRS 2048

struct pair {
    int later, earlier;
};

/* An archive on f = x^7 whose classes are multiples of [x, 0]. Seven times [x, 0] is neutral, so that a class is a
 * number below 7, and sums and doubles are those of numbers. */
struct model {
    int degree, count, seal;
    int operation[LIMIT + 2]; /* operation k in place k, from 1, the oldest */
    const char *drawing;
    int pairs;
    struct pair pair[MOST_PAIRS + 1];
};

/* So many times [x, 0], from 0 to 6. */
extern const struct seal_class times_x[7];

/* An archive of so many operations, none of them neutral, without pairs. */
struct model model(int degree, int count);

void add_pair(struct model *m, int later, int earlier);

/* The field 0x48 with a model's pairs. */
void put_pairs(struct bytes *b, const struct model *m);

struct bytes archive_of(const struct model *m);

/* Operation k is neutral, and the seal is less 2^(n-k) times its class. */
struct model without(const struct model *m, int k);

/* Has operation k a later one paired to it that is not neutral? */
int is_held(const struct model *m, int k);

/* Suppressing operation k has to write the archive without it, or to be refused with 123 or 124. */
void expect_without(const struct model *m, uint64_t k);

/* The same for k at its edges and far outside, in an archive of so many operations. */
void expect_numbers(int degree, int count);

/* The same for every archive of so many operations, whose classes are any multiples of [x, 0], and every k. */
void expect_every_archive(int degree, int count);

#endif
