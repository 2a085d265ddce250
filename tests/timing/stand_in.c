/* A product of elements in C that stands in for the proved one, so that tests/timing can be tested: without a fault its
 * timing depends on no element, and with one of the faults below the test has to fail, while every product stays the
 * same number.
 *
 *   ZEROS      a product with 0 is not made
 *   SKIPS      a multiple of the modulus is left out where its bits are all 0
 *   ENDS       a loop over the highest bits ends at the last that is 1
 *   TABLE      the highest bits are folded by a table
 *   CHECKS     the product is checked to be an element, which it always is */
#include <stdint.h>

#define ELEMENTS (UINT64_C(1) << 61)

uint64_t element_product(uint8_t d, uint64_t a, uint64_t b);
uint64_t product_of(uint8_t d, uint64_t a, uint64_t b);

/* The bits of a at every fourth place from i on, times those of b from j on. */
static uint64_t part(uint64_t a, unsigned i, uint64_t b, unsigned j) {
    return (a & UINT64_C(0x11111111) << i) * (b & UINT64_C(0x11111111) << j);
}

static uint64_t column(uint64_t a, uint64_t b, unsigned i) {
    const uint64_t sum = part(a, 0, b, i) ^ part(a, 1, b, (i + 3) & 3) ^ part(a, 2, b, (i + 2) & 3) ^ part(a, 3, b, (i + 1) & 3);
    return sum & UINT64_C(0x1111111111111111) << i;
}

static uint64_t clmul32(uint64_t a, uint64_t b) {
    return column(a, b, 0) ^ column(a, b, 1) ^ column(a, b, 2) ^ column(a, b, 3);
}

/* The bits of a number at every sixth place from i on, times m. */
static uint64_t multiple(uint64_t bits, unsigned i, uint64_t m) {
    const uint64_t factor = bits & UINT64_C(0x41041041041041) << i;
#ifdef SKIPS
    if (factor == 0) {
        __asm__ volatile(""); /* a branch stays a branch */
        return 0;
    }
#endif
    return factor * m;
}

static uint64_t multiples(uint64_t bits, uint64_t m) {
    return multiple(bits, 0, m) ^ multiple(bits, 1, m) ^ multiple(bits, 2, m) ^ multiple(bits, 3, m) ^ multiple(bits, 4, m) ^
        multiple(bits, 5, m);
}

static uint64_t fold_5(uint64_t n) {
    const uint64_t first = multiples(n >> 5, 5);
    return (n & 31) ^ (first & 31) ^ multiples(first >> 5, 5);
}

/* 39 times a number of up to five bits. */
static uint64_t first_multiples(uint64_t bits) {
#if defined TABLE
    static const uint16_t table[32] = {0, 39, 78, 105, 156, 187, 210, 245, 312, 287, 374, 337, 420, 387, 490, 461,
                                       624, 599, 574, 537, 748, 715, 674, 645, 840, 879, 774, 801, 980, 1011, 922, 957};
    return table[bits];
#elif defined ENDS
    uint64_t sum = 0;
    for (unsigned i = 0; bits >> i != 0; i++)
        sum ^= (bits >> i & 1) * 39 << i;
    return sum;
#else
    return multiples(bits, 39);
#endif
}

static uint64_t fold_61(uint64_t lo, uint64_t hi) {
    const uint64_t first = first_multiples(hi >> 56);
    return lo ^ (first & 31) << 56 ^ multiples((hi & ((UINT64_C(1) << 56) - 1)) ^ first >> 5, 39);
}

static uint64_t product_61(uint64_t a, uint64_t b) {
    const uint64_t a0 = a & 0x7fffffff, b0 = b & 0x7fffffff, low = clmul32(a0, b0), high = clmul32(a >> 31, b >> 31);
    const uint64_t middle = clmul32(a0 ^ a >> 31, b0 ^ b >> 31) ^ low ^ high;
    return fold_61((low ^ middle << 31) & (ELEMENTS - 1), middle >> 30 ^ high << 1);
}

/* Of two elements; not inlined, so that tests/straight finds it. */
__attribute__((noinline)) uint64_t product_of(uint8_t d, uint64_t a, uint64_t b) {
    uint64_t product;
#ifdef ZEROS
    if (a == 0 || b == 0)
        return 0;
#endif
    if (d == 5)
        product = fold_5(clmul32(a, b));
    else
        product = product_61(a, b);
#ifdef CHECKS
    if (product >= ELEMENTS) {
        __asm__ volatile("");
        return UINT64_MAX;
    }
#endif
    return product;
}

uint64_t element_product(uint8_t d, uint64_t a, uint64_t b) {
    if (d == 5 && a < 32 && b < 32)
        return product_of(5, a, b);
    if (d == 61 && a < ELEMENTS && b < ELEMENTS)
        return product_of(61, a, b);
    return UINT64_MAX;
}
