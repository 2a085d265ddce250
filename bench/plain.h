/* The calls that are measured, as a straightforward implementation in C of the same algorithms: bench/plain.c. A curve is
 * f3, f1 and f0; a class is its degree, u0, u1, u2, v0, v1 and v2. The checks of 110 and 111 are made, as the proved calls
 * make them; an answer is 0 or the refusal's number. */
#ifndef PLAIN_H
#define PLAIN_H
#include <stdint.h>

#ifdef __cplusplus
extern "C" {
#endif

uint64_t plain_product(uint64_t a, uint64_t b);
uint64_t plain_square(uint64_t a);
uint64_t plain_root(uint64_t a);
uint64_t plain_inverse(uint64_t a);
/* The root of y^2 + y = a with lowest bit 0, or all ones. */
uint64_t plain_quadratic_root(uint64_t a);
/* The product by 61 turns of shift and exclusive or, without a branch on a bit. */
uint64_t plain_loop_product(uint64_t a, uint64_t b);

uint32_t plain_membership(const uint64_t *f, const uint64_t *a);
uint32_t plain_double(const uint64_t *f, const uint64_t *a, uint64_t *r);
uint32_t plain_half(const uint64_t *f, const uint64_t *a, uint64_t *r);
uint32_t plain_sum(const uint64_t *f, const uint64_t *a, const uint64_t *b, uint64_t *r);
uint32_t plain_double_and_add(const uint64_t *f, const uint64_t *a, const uint64_t *b, uint64_t *r);
uint32_t plain_subtract_and_halve(const uint64_t *f, const uint64_t *a, const uint64_t *b, uint64_t *r);
uint32_t plain_stamp(const uint64_t *f, uint64_t stamp, uint64_t *r);
uint32_t plain_multiple(const uint64_t *f, const uint64_t *a, uint64_t n, uint64_t *r);
uint32_t plain_halvings(const uint64_t *f, const uint64_t *a, uint64_t k, uint64_t *r);

#ifdef __cplusplus
}
#endif
#endif
