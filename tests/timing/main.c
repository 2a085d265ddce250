/* Makes products of elements, for tests/timing, which looks at what is executed between the entry of element_product
 * and the return to `calls`: every pair of the bench field, then 1,000 pairs over GF(2^61), edges and single bits
 * among them.
 *
 * Prints the number of pairs over each field, and ends with 1 where a product is not what a loop over single bits
 * gives. */
#include <inttypes.h>
#include <stddef.h>
#include <stdint.h>
#include <stdio.h>

uint64_t element_product(uint8_t d, uint64_t a, uint64_t b);

#define BENCH_PAIRS 1024
#define WIDE_PAIRS 1000

struct pair {
    uint64_t a, b, product;
};

static struct pair pairs[BENCH_PAIRS + WIDE_PAIRS];

static uint64_t loop_product(unsigned d, uint64_t a, uint64_t b) {
    const uint64_t low = d == 5 ? 0x5 : 0x27;
    uint64_t product = 0;
    for (unsigned i = 0; i < d; i++) {
        if (b >> i & 1)
            product ^= a;
        a <<= 1;
        if (a >> d)
            a ^= UINT64_C(1) << d | low;
    }
    return product;
}

static uint64_t drawn(void) {
    static uint64_t state = UINT64_C(0x9e3779b97f4a7c15);
    state ^= state << 13;
    state ^= state >> 7;
    state ^= state << 17;
    return state >> 3;
}

/* 0, 1, t, the highest power of t, all bits but the lowest, and all bits; each with each, then single bits, then
 * drawn ones. */
static void draw_pairs(struct pair *p) {
    static const uint64_t edges[] = {0, 1, 2, UINT64_C(1) << 60, (UINT64_C(1) << 61) - 2, (UINT64_C(1) << 61) - 1};
    const size_t n = sizeof edges / sizeof *edges;
    size_t made = 0;
    for (size_t i = 0; i < n; i++)
        for (size_t j = 0; j < n; j++)
            p[made++] = (struct pair){edges[i], edges[j], 0};
    for (unsigned i = 0; i < 61; i++)
        for (unsigned j = 56; j < 61; j++)
            p[made++] = (struct pair){UINT64_C(1) << i, UINT64_C(1) << j, 0};
    while (made < WIDE_PAIRS) {
        p[made].a = drawn();
        p[made++].b = drawn();
    }
}

/* Not inlined, so that a return to it can be told. */
__attribute__((noinline)) void calls(uint8_t d, struct pair *p, size_t n) {
    for (size_t i = 0; i < n; i++)
        p[i].product = element_product(d, p[i].a, p[i].b);
}

static int wrong(uint8_t d, const struct pair *p, size_t n) {
    for (size_t i = 0; i < n; i++)
        if (p[i].product != loop_product(d, p[i].a, p[i].b)) {
            printf("degree %d: %" PRIu64 " times %" PRIu64 " is not %" PRIu64 "\n", d, p[i].a, p[i].b, p[i].product);
            return 1;
        }
    return 0;
}

int main(void) {
    struct pair *wide = pairs + BENCH_PAIRS;
    for (unsigned i = 0; i < BENCH_PAIRS; i++)
        pairs[i] = (struct pair){i / 32, i % 32, 0};
    draw_pairs(wide);
    calls(5, pairs, BENCH_PAIRS);
    calls(61, wide, WIDE_PAIRS);
    printf("%d %d\n", BENCH_PAIRS, WIDE_PAIRS);
    return wrong(5, pairs, BENCH_PAIRS) || wrong(61, wide, WIDE_PAIRS);
}
