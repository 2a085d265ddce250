/* What the examples share: the curve, an empty model, and how a class and a register are printed. */
#ifndef EXAMPLE_H
#define EXAMPLE_H

#include "seal_refusals.h"

#include <inttypes.h>
#include <stddef.h>
#include <stdio.h>

/* The curve y^2 + y = x^7 + 1 over GF(2^61): the two fields that a record begins with. */
static const uint8_t curve[] = {
    SEAL_TAG_DEGREE, 0, 1,  61,                      /* GF(2^61) */
    SEAL_TAG_CURVE,  0, 24, 0, 0, 0, 0, 0, 0, 0, 0,  /* f3 = 0 */
    0,               0, 0,  0, 0, 0, 0, 0,           /* f1 = 0 */
    0,               0, 0,  0, 0, 0, 0, 1,           /* f0 = 1 */
};

/* A field is a head, which is a tag and the length of the body in two bytes, and the body. */
#define HEAD 3

/* The number in so many bytes, the high one first. */
static inline uint64_t number_at(const uint8_t *at, size_t length) {
    uint64_t number = 0;
    for (size_t i = 0; i < length; i++)
        number = number << 8 | at[i];
    return number;
}

static inline size_t body_length(const uint8_t *field) {
    return (size_t)number_at(field + 1, 2);
}

static inline const uint8_t *next_field(const uint8_t *field) {
    return field + HEAD + body_length(field);
}

/* Prints the n coefficients below x^n, from the highest power down. */
static inline void print_coefficients(uint64_t n, const uint64_t *row) {
    while (n-- > 0)
        printf("%" PRIx64 "%s", row[n], n > 0 ? "," : "");
}

/* Prints a class as the walk report writes it, the degree, u below its leading term and v, and ends the line. */
static inline void print_class(uint64_t degree, const uint64_t *u, const uint64_t *v) {
    printf("%" PRIu64 ":", degree);
    print_coefficients(degree, u);
    putchar(':');
    print_coefficients(degree, v);
    putchar('\n');
}

/* The same of a class in stored form, which has u, then v, the highest power first, in eight bytes a coefficient. */
static inline void print_stored_class(const uint8_t *field) {
    uint64_t u[3] = {0}, v[3] = {0};
    size_t degree = body_length(field) / 16;
    for (size_t i = 0; i < degree; i++) {
        u[degree - 1 - i] = number_at(field + HEAD + 8 * i, 8);
        v[degree - 1 - i] = number_at(field + HEAD + 8 * (degree + i), 8);
    }
    print_class(degree, u, v);
}

/* The stored form of an empty model: count 0, nothing released, the neutral seal. */
#define EMPTY_REGISTER {SEAL_TAG_COUNT, 0, 2, 0, 0, SEAL_TAG_RELEASED, 0, 2, 0, 0, SEAL_TAG_CLASS, 0, 0}
#define EMPTY_REGISTER_LENGTH 13

/* The seal's field of a register in stored form: count, released step, seal. */
static inline const uint8_t *seal_field(const uint8_t *fields) {
    return next_field(next_field(fields));
}

/* Prints the count, then the seal, of a register in stored form, as commit, undo and release write it. */
static inline void print_stored_register(const uint8_t *fields) {
    printf("%" PRIu64 " ", number_at(fields + HEAD, body_length(fields)));
    print_stored_class(seal_field(fields));
}

#endif
