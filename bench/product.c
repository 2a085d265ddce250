/* How long a product of elements takes, in products of another version, which is linked under the name other_product: products
 * of 100 drawn pairs, which the processor may overlap, and 100 products of which each needs the one before. Times are the
 * processor's, the least of 3,000 rounds. Ends with 1 where the two give different products. */
#include <stdint.h>
#include <stdio.h>
#include <time.h>

#define PRODUCTS 100
#define ROUNDS 3000

typedef uint64_t product(uint8_t d, uint64_t a, uint64_t b);
product element_product, other_product;

static uint64_t drawn[PRODUCTS];
static volatile uint64_t used;

static double seconds(void) {
    struct timespec t;
    clock_gettime(CLOCK_PROCESS_CPUTIME_ID, &t);
    return (double)t.tv_sec + 1e-9 * (double)t.tv_nsec;
}

static double apart(product *times, uint8_t d) {
    uint64_t sum = 0;
    double began = seconds();
    for (int i = 0; i < PRODUCTS; i++)
        sum ^= times(d, drawn[i], drawn[PRODUCTS - 1 - i]);
    began = seconds() - began;
    used = sum;
    return began;
}

static double chained(product *times, uint8_t d) {
    uint64_t last = 1;
    double began = seconds();
    for (int i = 0; i < PRODUCTS; i++)
        last = times(d, last, drawn[i]);
    began = seconds() - began;
    used = last;
    return began;
}

static double least(double (*timed)(product *, uint8_t), product *times, uint8_t d) {
    double best = 1;
    for (int i = 0; i < ROUNDS; i++) {
        const double took = timed(times, d);
        if (took < best)
            best = took;
    }
    return best;
}

static int compared(uint8_t d) {
    uint64_t state = UINT64_C(0x9e3779b97f4a7c15);
    for (int i = 0; i < PRODUCTS; i++) {
        state ^= state << 13;
        state ^= state >> 7;
        state ^= state << 17;
        drawn[i] = state >> (64 - d) | 1;
    }
    for (int i = 0; i < PRODUCTS; i++)
        for (int j = 0; j < PRODUCTS; j++)
            if (element_product(d, drawn[i], drawn[j]) != other_product(d, drawn[i], drawn[j]))
                return 1;
    printf("  GF(2^%d)%s %.2f where products are apart, %.2f where each needs the one before\n", d, d < 10 ? " " : "",
           least(apart, element_product, d) / least(apart, other_product, d),
           least(chained, element_product, d) / least(chained, other_product, d));
    return 0;
}

int main(void) {
    return compared(61) || compared(5);
}
