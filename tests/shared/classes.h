/* The degrees of the two fields, and classes on f = x^7 and f = x^7 + 1: those of document 01's examples, and wrong
 * ones. */
#ifndef CLASSES_H
#define CLASSES_H

#include "seal_register.h"

/* The most operations that a register counts, and the most classes that a walk takes. */
#define LIMIT 1024

static const int degrees[2] = {5, 61};

/* Degree, u and v from the lowest power up. */
static const struct seal_class neutral = {0, {0, 0, 0}, {0, 0, 0}};
static const struct seal_class x_0 = {1, {0, 0, 0}, {0, 0, 0}};      /* [x, 0], on f = x^7 */
static const struct seal_class x_1 = {1, {0, 0, 0}, {1, 0, 0}};      /* [x, 1] */
static const struct seal_class xx_0 = {2, {0, 0, 0}, {0, 0, 0}};     /* [x^2, 0] */
static const struct seal_class xx_1 = {2, {0, 0, 0}, {1, 0, 0}};     /* [x^2, 1] */
static const struct seal_class xxx_0 = {3, {0, 0, 0}, {0, 0, 0}};    /* [x^3, 0] */
static const struct seal_class xxx_1 = {3, {0, 0, 0}, {1, 0, 0}};    /* [x^3, 1] */
static const struct seal_class b1_0 = {1, {1, 0, 0}, {0, 0, 0}};     /* [x + 1, 0], on f = x^7 + 1 */
static const struct seal_class b1_1 = {1, {1, 0, 0}, {1, 0, 0}};     /* [x + 1, 1] */
static const struct seal_class b2 = {2, {1, 0, 0}, {1, 1, 0}};       /* [x^2 + 1, x + 1] */
static const struct seal_class b3_0 = {3, {1, 0, 1}, {0, 0, 0}};     /* [x^3 + x^2 + 1, 0] */
static const struct seal_class b3_1 = {3, {1, 0, 1}, {1, 0, 0}};     /* [x^3 + x^2 + 1, 1] */
static const struct seal_class b4 = {3, {1, 1, 1}, {0, 1, 0}};       /* [x^3 + x^2 + x + 1, x] */
static const struct seal_class b4_minus = {3, {1, 1, 1}, {1, 1, 0}}; /* [x^3 + x^2 + x + 1, x + 1] */
static const struct seal_class off = {1, {1, 0, 0}, {0, 0, 0}};      /* [x + 1, 0], not on f = x^7 */

/* A class with a number past its degree, one with a number of 2^d and one that is not on f = x^7; and the refusal of
 * each. */
struct seal_class wrong(int kind, int degree);
static const uint32_t wrong_numbers[3] = {104, 110, 111};

int same_class(struct seal_class a, struct seal_class b);

#endif
