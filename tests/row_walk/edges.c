/* The edges of a walk over a lent row, written out from document 01. */
#include "count.h"
#include "walk.h"

/* f = x^7 */
static struct seal_curve curve(int degree) {
    struct seal_curve c = {(uint8_t)degree, 0, 0, 0};
    return c;
}

/* A row of as many classes as asked for, all [x, 0]. */
static struct seal_class *row_of(size_t classes) {
    static struct seal_class row[ROOM];
    for (size_t i = 0; i < classes; i++)
        row[i] = x_0;
    return row;
}

static void empty(void) {
    const struct seal_class seals[3] = {neutral, x_1, xxx_0};
    for (int d = 0; d < 2; d++) {
        for (int i = 0; i < 3; i++) {
            answers(curve(degrees[d]), seals[i], NULL, 0, seals[i]);
            struct seal_row_walk got = seal_walk_row(curve(degrees[d]), seals[i], NULL, 0);
            if (got.refusal != 0 || !same_class(got.seal, seals[i]))
                fault("a row that is NULL: got %u, or another seal", got.refusal);
        }
        for (int kind = 0; kind < 3; kind++)
            refuses(curve(degrees[d]), wrong(kind, degrees[d]), NULL, 0, wrong_numbers[kind]);
    }
    end_test("an empty row answers the last seal, where no check refuses it");
}

/* The walk that document 01 reports: from [x^2, 1] over [x, 1] and [x, 0]. */
static void document(void) {
    const struct seal_class row[3] = {x_1, x_0, neutral};
    for (int d = 0; d < 2; d++) {
        answers(curve(degrees[d]), xx_1, row, 1, xxx_0);
        answers(curve(degrees[d]), xx_1, row, 2, x_0);
        answers(curve(degrees[d]), xx_1, row, 3, xxx_1); /* half of [x, 0] is [x^3, 1], example 3 */
    }
    end_test("document 01's walk, over one, two and three classes");
}

static void lengths(void) {
    for (int d = 0; d < 2; d++) {
        struct seal_curve bad = curve(degrees[d]);
        struct seal_class *row = row_of(LIMIT + 1);
        refuses(curve(degrees[d]), x_0, row, LIMIT + 1, 109);
        for (int kind = 0; kind < 3; kind++) {
            refuses(curve(degrees[d]), wrong(kind, degrees[d]), row, LIMIT + 1, 109);
            row[0] = wrong(kind, degrees[d]);
            refuses(curve(degrees[d]), x_0, row, LIMIT + 1, 109);
        }
        bad.f0 = (uint64_t)1 << degrees[d];
        refuses(bad, x_0, row, LIMIT + 1, 107);
        bad.degree = 6;
        refuses(bad, x_0, row, LIMIT + 1, 106);
    }
    end_test("1,025 classes are 109, after 106 and 107 and before any class");
}

static void curves(void) {
    for (int degree = 0; degree < 256; degree++)
        if (degree != 5 && degree != 61) {
            struct seal_curve c = {(uint8_t)degree, UINT64_MAX, UINT64_MAX, UINT64_MAX};
            refuses(c, wrong(2, 5), row_of(2), 2, 106);
            refuses(c, wrong(2, 5), NULL, 0, 106);
        }
    for (int d = 0; d < 2; d++)
        for (int place = 0; place < 3; place++) {
            struct seal_curve c = curve(degrees[d]);
            uint64_t *f[3] = {&c.f3, &c.f1, &c.f0};
            *f[place] = (uint64_t)1 << degrees[d];
            refuses(c, wrong(0, degrees[d]), row_of(2), 2, 107);
            refuses(c, wrong(0, degrees[d]), NULL, 0, 107);
            *f[place] -= 1;
            refuses(c, wrong(0, degrees[d]), row_of(2), 2, 104);
        }
    end_test("106 for every other degree; 107 at 2^d in a coefficient, not at 2^d - 1; both before the last seal");
}

static void classes(void) {
    for (int d = 0; d < 2; d++)
        for (int kind = 0; kind < 3; kind++) {
            struct seal_class other = wrong((kind + 1) % 3, degrees[d]);
            struct seal_class *row = row_of(4);
            row[0] = other;
            refuses(curve(degrees[d]), wrong(kind, degrees[d]), row, 4, wrong_numbers[kind]);
            for (size_t place = 0; place < 4; place++) {
                row = row_of(4);
                row[place] = wrong(kind, degrees[d]);
                for (size_t older = place + 1; older < 4; older++)
                    row[older] = other;
                refuses(curve(degrees[d]), xx_1, row, 4, wrong_numbers[kind]);
            }
            row = row_of(LIMIT);
            row[LIMIT - 1] = wrong(kind, degrees[d]);
            refuses(curve(degrees[d]), xx_1, row, LIMIT, wrong_numbers[kind]);
        }
    struct seal_class high = neutral;
    for (high.degree = 4; high.degree < 70; high.degree++)
        refuses(curve(61), x_0, &high, 1, 104);
    end_test("104, 110 and 111 of the last seal, then of the classes, newest first, at each place of a row");
}

/* Commits up to the limit on a register that is lent, a release after every so many, then walks back over the k newest
 * classes: a walk has no released step and goes past it. */
static void there_and_back(void) {
    static const size_t parts[] = {0, 1, 2, 3, 512, 1023, 1024};
    for (int d = 0; d < 2; d++) {
        static struct seal_class seals[LIMIT + 1], row[LIMIT];
        struct seal_register kept = {curve(degrees[d]), 0, xxx_0, 0};
        for (size_t i = 0; i < LIMIT; i++) {
            struct seal_class operation = i % 5 == 0 ? neutral : i % 3 == 0 ? x_1 : i % 7 == 0 ? kept.seal : x_0;
            seals[LIMIT - i] = kept.seal;
            row[LIMIT - 1 - i] = operation;
            uint32_t got = seal_register_commit(&kept, operation);
            if (got != 0)
                fault("commit %zu on the way: got %u", i, got);
            if (i % 100 == 99 || i == LIMIT - 2)
                got = seal_register_release(&kept);
            if (got != 0)
                fault("release after %zu commits: got %u", i + 1, got);
        }
        seals[0] = kept.seal;
        for (size_t i = 0; i < sizeof parts / sizeof *parts; i++)
            answers(kept.curve, kept.seal, row, parts[i], seals[parts[i]]);
    }
    end_test("1,024 commits over each field, with releases, and walks past these over the newest 0 to 1,024 classes");
}

int test_edges(void) {
    empty();
    document();
    lengths();
    curves();
    classes();
    there_and_back();
    return end_tests();
}
