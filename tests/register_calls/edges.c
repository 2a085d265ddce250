/* The edges of the calls on a lent register, written out from document 01. */
#include "classes.h"
#include "count.h"
#include "lent.h"

static void counts(void) {
    for (int d = 0; d < 2; d++) {
        int degree = degrees[d];
        uint64_t within[6] = {0, 1, 2, 512, LIMIT - 1, LIMIT};
        uint64_t above[3] = {LIMIT + 1, (uint64_t)1 << 32, UINT64_MAX};
        for (int i = 0; i < 6; i++) {
            /* twice [x, 0] plus neutral is [x^2, 0], and half of [x^2, 0] less neutral is [x, 0] */
            uint64_t count = within[i];
            if (count < LIMIT)
                leaves(COMMIT, of(degree, count, x_0), neutral, of(degree, count + 1, xx_0));
            else
                refuses(COMMIT, of(degree, count, x_0), neutral, 114);
            if (count > 0)
                leaves(UNDO, of(degree, count, xx_0), neutral, of(degree, count - 1, x_0));
            else
                refuses(UNDO, of(degree, count, xx_0), neutral, 113);
        }
        for (int i = 0; i < 3; i++)
            for (int call = COMMIT; call < CALLS; call++)
                refuses(call, of(degree, above[i], x_0), neutral, 109);
    }
    end_test("counts 0, 1, 2, 512, 1,023, 1,024; 1,025, 2^32 and 2^64 - 1 are 109");
}

static void degrees_and_curves(void) {
    for (int call = COMMIT; call < CALLS; call++) {
        for (int degree = 0; degree < 256; degree++)
            if (degree != 5 && degree != 61) {
                struct seal_register r = of(degree, UINT64_MAX, off);
                r.curve.f3 = r.curve.f1 = r.curve.f0 = UINT64_MAX;
                refuses(call, r, off, 106);
            }
        for (int d = 0; d < 2; d++)
            for (int place = 0; place < 3; place++) {
                struct seal_register r = of(degrees[d], UINT64_MAX, off);
                uint64_t *f[3] = {&r.curve.f3, &r.curve.f1, &r.curve.f0};
                *f[place] = (uint64_t)1 << degrees[d];
                refuses(call, r, off, 107);
                *f[place] -= 1;
                refuses(call, r, off, 109);
            }
    }
    end_test("106 for every other degree; 107 at 2^d in each coefficient, and not at 2^d - 1; both before 109");
}

static void classes(void) {
    for (int call = COMMIT; call <= UNDO; call++)
        for (int d = 0; d < 2; d++) {
            uint64_t edge = call == COMMIT ? LIMIT : 0;
            for (int seal = 0; seal < 3; seal++) {
                struct seal_class other = wrong(2 - seal, degrees[d]);
                refuses(call, of(degrees[d], edge, wrong(seal, degrees[d])), other, wrong_numbers[seal]);
                refuses(call, of(degrees[d], edge, x_0), wrong(seal, degrees[d]), wrong_numbers[seal]);
            }
            struct seal_class high = neutral;
            for (high.degree = 4; high.degree < 70; high.degree++) {
                refuses(call, of(degrees[d], 1, high), x_0, 104);
                refuses(call, of(degrees[d], 1, x_0), high, 104);
            }
        }
    end_test("104, 110 and 111 of the seal, then of the class, before 113 and 114");
}

/* One register, which stays where it is: commits up to the limit, then each taken back by an undo with its class. */
static void there_and_back(void) {
    for (int d = 0; d < 2; d++) {
        struct seal_register kept = of(degrees[d], 0, neutral);
        static struct seal_class seals[LIMIT];
        for (int i = 0; i < LIMIT; i++) {
            seals[i] = kept.seal;
            uint32_t got = seal_register_commit(&kept, i % 3 == 0 ? neutral : x_0);
            if (got != 0 || kept.count != (uint64_t)i + 1)
                fault("commit %d on the way: got %u", i, got);
        }
        refuses(COMMIT, kept, x_0, 114);
        for (int i = LIMIT - 1; i >= 0; i--) {
            uint32_t got = seal_register_undo(&kept, i % 3 == 0 ? neutral : x_0);
            if (got != 0 || kept.count != (uint64_t)i || !same_class(kept.seal, seals[i]))
                fault("undo %d on the way back: got %u", i, got);
        }
        refuses(UNDO, kept, x_0, 113);
    }
    end_test("1,024 commits on one register, and the way back");
}

void test_edges(void) {
    counts();
    degrees_and_curves();
    classes();
    there_and_back();
}
