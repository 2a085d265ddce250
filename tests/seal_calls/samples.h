/* Classes of every degree on some curves, and calls whose answers are handed on to further calls. */
#ifndef SAMPLES_H
#define SAMPLES_H

#include "points.h"
#include "records.h"

#define CLASSES 4

/* A curve in stored form, the fields of points on it, and of classes of degrees 0, 1, 2 and 3: the sums of so many of
 * the points. */
struct sample {
    struct bytes curve, point[POINTS], class[CLASSES];
};

struct sample sample(int which);

/* The record of one class, or of two. */
struct bytes record_of(const struct sample *s, const struct bytes *first, const struct bytes *second);

/* What a call writes; where it is refused a fault, and no byte. */
struct bytes made(enum call call, const struct bytes *in, uint64_t number);

struct bytes sum_of(const struct sample *s, const struct bytes *first, const struct bytes *second);
struct bytes on_one(enum call call, const struct sample *s, const struct bytes *class, uint64_t number);

#endif
