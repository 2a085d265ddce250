/* The released step and a release, written out from document 02, request 8. */
#include "classes.h"
#include "count.h"
#include "lent.h"

static struct seal_register with_released(int degree, uint64_t count, uint64_t released, struct seal_class seal) {
    struct seal_register r = of(degree, count, seal);
    r.released = released;
    return r;
}

/* Released steps beside a count: none, half of it, one below it and the count itself. */
#define RELEASED_STEPS 4
static uint64_t released_below(uint64_t count, int which) {
    const uint64_t released[RELEASED_STEPS] = {0, count / 2, count == 0 ? 0 : count - 1, count};
    return released[which];
}

#define COUNTS 7
static const uint64_t counts[COUNTS] = {0, 1, 2, 255, 512, LIMIT - 1, LIMIT};

static void release_at(int degree, uint64_t count, uint64_t released) {
    const struct seal_class seals[4] = {neutral, x_1, xx_0, xxx_1};
    for (int i = 0; i < 4; i++) {
        struct seal_register all = with_released(degree, count, count, seals[i]);
        leaves(RELEASE, with_released(degree, count, released, seals[i]), off, all);
        leaves(RELEASE, all, off, all);
    }
}

static void releases(void) {
    for (int d = 0; d < 2; d++)
        for (int i = 0; i < COUNTS; i++)
            for (int which = 0; which < RELEASED_STEPS; which++)
                release_at(degrees[d], counts[i], released_below(counts[i], which));
    end_test("a release sets the released step to the count, at 0 and at 1,024 too, and a second one changes nothing");
}

/* twice [x, 0] plus neutral is [x^2, 0], and half of [x^2, 0] less neutral is [x, 0] */
static void released_kept(void) {
    for (int d = 0; d < 2; d++)
        for (int i = 0; i < COUNTS; i++)
            for (int which = 0; which < RELEASED_STEPS; which++) {
                int degree = degrees[d];
                uint64_t count = counts[i], released = released_below(count, which);
                struct seal_register r = with_released(degree, count, released, xx_0);
                if (count == LIMIT)
                    refuses(COMMIT, r, neutral, 114);
                else
                    leaves(COMMIT, with_released(degree, count, released, x_0), neutral,
                           with_released(degree, count + 1, released, xx_0));
                if (count == 0)
                    refuses(UNDO, r, neutral, 113);
                else if (count == released)
                    refuses(UNDO, r, neutral, 121);
                else
                    leaves(UNDO, r, neutral, with_released(degree, count - 1, released, x_0));
            }
    end_test("commit and undo keep the released step; an undo at it is 121, one above passes, at count 0 it is 113");
}

static void released_above(void) {
    for (int d = 0; d < 2; d++)
        for (int i = 0; i < COUNTS; i++)
            for (int call = COMMIT; call < CALLS; call++) {
                int degree = degrees[d];
                uint64_t count = counts[i];
                uint64_t above[5] = {count + 1, count + 2, LIMIT + 1, ((uint64_t)1 << 32) + count, UINT64_MAX};
                for (int j = 0; j < 5; j++) {
                    refuses(call, with_released(degree, count, above[j], x_0), neutral, 120);
                    for (int kind = 0; kind < 3; kind++)
                        refuses(call, with_released(degree, count, above[j], wrong(kind, degree)), off, 120);
                }
                struct seal_register r = with_released(degree, LIMIT + 1, LIMIT + 2, off);
                refuses(call, r, off, 109);
                r.curve.f1 = (uint64_t)1 << degree;
                refuses(call, r, off, 107);
                r.curve.degree = 6;
                refuses(call, r, off, 106);
            }
    end_test("120: a released step of one above the count and more, after 106, 107 and 109, before the seal");
}

/* A release asks 104, 110 and 111 of the seal, and never 113, 114 or 121; an undo asks 121 last. */
static void classes(void) {
    for (int d = 0; d < 2; d++)
        for (int i = 0; i < COUNTS; i++)
            for (int kind = 0; kind < 3; kind++) {
                int degree = degrees[d];
                uint64_t count = counts[i];
                refuses(RELEASE, with_released(degree, count, count, wrong(kind, degree)), x_0, wrong_numbers[kind]);
                refuses(RELEASE, with_released(degree, count, 0, wrong(kind, degree)), x_0, wrong_numbers[kind]);
                refuses(UNDO, with_released(degree, count, count, x_0), wrong(kind, degree), wrong_numbers[kind]);
                refuses(UNDO, with_released(degree, count, count, wrong(kind, degree)), x_0, wrong_numbers[kind]);
            }
    end_test("104, 110 and 111 of the seal refuse a release, and of seal and class an undo before 121");
}

/* Sixteen commits on one register, with a release after the first so many: each commit after it is taken back, and the
 * one before it no more. */
static void sessions(void) {
    enum { OPERATIONS = 16 };
    for (int d = 0; d < 2; d++)
        for (int at = 0; at <= OPERATIONS; at++) {
            struct seal_register kept = of(degrees[d], 0, xxx_0);
            struct seal_class seals[OPERATIONS];
            for (int i = 0; i <= OPERATIONS; i++) {
                if (i == at && (lend(RELEASE, &kept, off, 0) != 0 || kept.released != (uint64_t)at))
                    fault("a release after %d of %d commits", at, OPERATIONS);
                if (i == OPERATIONS)
                    break;
                seals[i] = kept.seal;
                if (lend(COMMIT, &kept, i % 3 == 0 ? neutral : x_1, i % 2) != 0)
                    fault("commit %d of a session", i);
            }
            for (int i = OPERATIONS - 1; i >= at; i--)
                if (lend(UNDO, &kept, i % 3 == 0 ? neutral : x_1, i % 2) != 0 || !same_class(kept.seal, seals[i]))
                    fault("undo %d of a session with a release at %d", i, at);
            refuses(UNDO, kept, x_1, at == 0 ? 113 : 121);
            leaves(RELEASE, kept, off, kept);
        }
    end_test("sixteen commits with a release among them, taken back as far as the release and no further");
}

void test_releases(void) {
    releases();
    released_kept();
    released_above();
    classes();
    sessions();
}
