/* The archives of models.h. */
#include "models.h"

#include <stdlib.h>

const struct seal_class times_x[7] = {
    {0, {0, 0, 0}, {0, 0, 0}}, {1, {0, 0, 0}, {0, 0, 0}}, {2, {0, 0, 0}, {0, 0, 0}}, {3, {0, 0, 0}, {0, 0, 0}},
    {3, {0, 0, 0}, {1, 0, 0}}, {2, {0, 0, 0}, {1, 0, 0}}, {1, {0, 0, 0}, {1, 0, 0}},
};

struct model model(int degree, int count) {
    struct model m = {.degree = degree, .count = count, .seal = 1, .drawing = "A1"};
    for (int k = 1; k <= count; k++)
        m.operation[k] = 1 + k * 5 % 6;
    return m;
}

void add_pair(struct model *m, int later, int earlier) {
    if (m->pairs > MOST_PAIRS)
        abort();
    m->pair[m->pairs++] = (struct pair){later, earlier};
}

static void put_two_bytes(struct bytes *b, int n) {
    put(b, n >> 8 & 0xff);
    put(b, n & 0xff);
}

void put_pairs(struct bytes *b, const struct model *m) {
    put_head(b, SEAL_TAG_PAIRS, 4 * (size_t)m->pairs);
    for (int i = 0; i < m->pairs; i++) {
        put_two_bytes(b, m->pair[i].later);
        put_two_bytes(b, m->pair[i].earlier);
    }
}

struct bytes archive_of(const struct model *m) {
    struct bytes b;
    size_t characters = 0;
    b.length = 0;
    while (m->drawing[characters] != 0)
        characters++;
    put_degree(&b, m->degree);
    put_curve(&b, 0, 0, 0);
    put_head(&b, SEAL_TAG_DRAWING, characters);
    for (size_t i = 0; i < characters; i++)
        put(&b, m->drawing[i]);
    put_count(&b, m->count);
    put_class(&b, SEAL_TAG_CLASS, times_x[m->seal]);
    for (int k = m->count; k > 0; k--)
        put_class(&b, SEAL_TAG_OPERATION, times_x[m->operation[k]]);
    if (m->pairs > 0)
        put_pairs(&b, m);
    return b;
}

/* 2^3 is 1 modulo 7. */
struct model without(const struct model *m, int k) {
    static const int powers[3] = {1, 2, 4};
    struct model after = *m;
    after.operation[k] = 0;
    after.seal = (m->seal + 7 * 4 - powers[(m->count - k) % 3] * m->operation[k]) % 7;
    return after;
}

int is_held(const struct model *m, int k) {
    int held = 0;
    for (int i = 0; i < m->pairs; i++)
        held |= m->pair[i].earlier == k && m->operation[m->pair[i].later] != 0;
    return held;
}

void expect_without(const struct model *m, uint64_t k) {
    struct bytes in = archive_of(m);
    if (k < 1 || k > (uint64_t)m->count) {
        refused(&in, k, SEAL_NO_SUCH_OPERATION);
    } else if (is_held(m, (int)k)) {
        refused(&in, k, SEAL_OPERATION_HELD);
    } else {
        struct model after = without(m, (int)k);
        struct bytes out = archive_of(&after);
        writes(&in, k, &out);
    }
}

/* Of some of the numbers a part of the bits alone would pass. */
void expect_numbers(int degree, int count) {
    const struct model m = model(degree, count);
    const uint64_t n = (uint64_t)count, one = 1;
    const uint64_t ks[] = {
        0, 1, 2, n / 2, n - 1, n, n + 1, n + 2, 65536, 65536 + n, one << 32, (one << 32) + n, one << 63, UINT64_MAX - n,
        UINT64_MAX - 1, UINT64_MAX,
    };
    for (size_t i = 0; i < sizeof ks / sizeof ks[0]; i++)
        expect_without(&m, ks[i]);
}

void expect_every_archive(int degree, int count) {
    long archives = 7;
    for (int i = 0; i < count; i++)
        archives *= 7;
    for (long which = 0; which < archives; which++) {
        struct model m = model(degree, count);
        long left = which;
        for (int k = 1; k <= count; k++) {
            m.operation[k] = (int)(left % 7);
            left /= 7;
        }
        m.seal = (int)left;
        for (int k = 1; k <= count; k++)
            expect_without(&m, (uint64_t)k);
    }
}
