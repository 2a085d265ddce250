/* The laws of the group (document 02, request 7): sums in either order and in either grouping, the neutral class and
 * opposites; and how far the last seal of a list of commits moves where one operation is changed. All that is
 * expected is made by the byte calls themselves. */
#include "edges.h"
#include "samples.h"
#include "seal.h"

#include <string.h>

#define POOL 9

/* A sample, and the fields of different classes on its curve, some of which share points or opposites of points. */
static struct pool {
    struct sample s;
    struct bytes class[POOL];
} pools[CURVES];

static int same(const struct bytes *a, const struct bytes *b) {
    return a->length == b->length && memcmp(a->at, b->at, a->length) == 0;
}

static void make_pool(struct pool *p, int which) {
    p->s = sample(which);
    for (int i = 0; i < CLASSES; i++)
        p->class[i] = p->s.class[i];
    p->class[4] = p->s.point[1];
    p->class[5] = p->s.point[2];
    p->class[6] = on_one(OPPOSITE, &p->s, &p->class[1], 0);
    p->class[7] = on_one(OPPOSITE, &p->s, &p->class[3], 0);
    p->class[8] = on_one(DOUBLE, &p->s, &p->class[3], 0);
}

static void make_pools(void) {
    for (int which = 0; which < CURVES; which++) {
        struct pool *p = &pools[which];
        make_pool(p, which);
        for (size_t i = 0; i < CLASSES; i++)
            if (p->class[i].length != 3 + 16 * i)
                fault("curve %d: class %zu has another degree", which, i);
        for (int i = 0; i < POOL; i++)
            for (int j = 0; j < i; j++)
                if (same(&p->class[i], &p->class[j]))
                    fault("curve %d: classes %d and %d are the same", which, j, i);
    }
    end_test("classes of every degree on six curves, no two of a curve the same");
}

/* The sum has to write the field given. */
static void sum_is(const struct sample *s, const struct bytes *first, const struct bytes *second,
                   const struct bytes *expected) {
    struct bytes in = record_of(s, first, second);
    expect_at(SUM, in.at, in.length, 0, SEAL_CLASS_OUTPUT, (uint32_t)expected->length, expected->at, calls() % 2 == 0);
}

static void either_order(void) {
    for (const struct pool *p = pools; p < pools + CURVES; p++)
        for (int a = 0; a < POOL; a++)
            for (int b = 0; b <= a; b++) {
                struct bytes sum = sum_of(&p->s, &p->class[a], &p->class[b]);
                sum_is(&p->s, &p->class[b], &p->class[a], &sum);
            }
    end_test("sums in either order are the same to the byte");
}

static void either_grouping(void) {
    static struct bytes sums[POOL][POOL];
    for (const struct pool *p = pools; p < pools + CURVES; p++) {
        for (int a = 0; a < POOL; a++)
            for (int b = 0; b < POOL; b++)
                sums[a][b] = sum_of(&p->s, &p->class[a], &p->class[b]);
        for (int a = 0; a < POOL; a++)
            for (int b = 0; b < POOL; b++)
                for (int c = 0; c <= a; c++) {
                    struct bytes left = sum_of(&p->s, &sums[a][b], &p->class[c]);
                    sum_is(&p->s, &p->class[a], &sums[b][c], &left);
                }
    }
    end_test("sums in either grouping are the same to the byte");
}

static void neutral_class(void) {
    for (const struct pool *p = pools; p < pools + CURVES; p++)
        for (int a = 0; a < POOL; a++) {
            sum_is(&p->s, &p->class[0], &p->class[a], &p->class[a]);
            sum_is(&p->s, &p->class[a], &p->class[0], &p->class[a]);
        }
    end_test("the neutral class added changes no byte, on either side");
}

static void opposites(void) {
    for (const struct pool *p = pools; p < pools + CURVES; p++)
        for (int a = 0; a < POOL; a++) {
            struct bytes opposite = on_one(OPPOSITE, &p->s, &p->class[a], 0);
            struct bytes again = on_one(OPPOSITE, &p->s, &opposite, 0);
            sum_is(&p->s, &p->class[a], &opposite, &p->class[0]);
            sum_is(&p->s, &opposite, &p->class[a], &p->class[0]);
            if (!same(&again, &p->class[a]))
                fault("the opposite of the opposite is another class");
        }
    end_test("a class plus its opposite is the neutral class");
}

/* ---- one operation changed */

#define LONGEST 64

/* The record of a commit: the register is what the commit before wrote, the class that of the operation. */
static struct bytes commit_record(const struct sample *s, const struct bytes *written, const struct bytes *class) {
    struct bytes in = record_of(s, written, class);
    in.at[s->curve.length + written->length] = SEAL_TAG_OPERATION;
    return in;
}

/* A commit of bytes that are no class, which is refused and writes none. Beside [x + a, b] there is [x + a, b + 1]
 * alone. */
static void no_commit(const struct sample *s, const struct bytes *written) {
    struct bytes in = commit_record(s, written, &s->point[0]);
    in.at[in.length - 1] ^= 2;
    expect_at(COMMIT, in.at, in.length, 0, SEAL_REGISTER_OUTPUT, SEAL_NOT_A_CLASS, NULL, calls() % 2 == 0);
}

/* The operations of a list of n commits, from 1, the oldest. */
static const struct bytes *operation(const struct pool *p, int n, int i) {
    return &p->class[(n + 5 * i + i / 3) % POOL];
}

/* The seal after n commits, of which operation k is the class given; where k is 0, none is changed. Refused commits
 * stand between them, at places that depend on k. */
static struct bytes last_seal(const struct pool *p, int n, int k, const struct bytes *changed) {
    struct bytes written = {0}, seal = {0};
    put_count(&written, n);
    put_released(&written, n / 2);
    append(&written, &p->class[n % POOL]);
    for (int i = 1; i <= n; i++) {
        if ((i + k) % 5 == 0)
            no_commit(&p->s, &written);
        struct bytes in = commit_record(&p->s, &written, i == k ? changed : operation(p, n, i));
        written = made(COMMIT, &in, 0);
    }
    for (size_t i = 10; i < written.length; i++)
        put(&seal, written.at[i]);
    return seal;
}

/* What D is changed to, by turns: a class of the pool, the opposite of D, the neutral class, D plus a point. */
static struct bytes changed_class(const struct pool *p, const struct bytes *d, int turn) {
    switch (turn % 4) {
    case 0: return p->class[turn / 4 % POOL];
    case 1: return on_one(OPPOSITE, &p->s, d, 0);
    case 2: return p->class[0];
    default: return sum_of(&p->s, d, &p->s.point[turn / 4 % POINTS]);
    }
}

/* Where operation k alone is changed from D to E, the last seal moves by n - k doublings of E - D; and it moves where
 * the two are different classes. */
static void moves(const struct pool *p, int n, int k, int turn) {
    const struct bytes *d = operation(p, n, k);
    struct bytes e = changed_class(p, d, turn), first = last_seal(p, n, 0, NULL), last = last_seal(p, n, k, &e);
    struct bytes minus_d = on_one(OPPOSITE, &p->s, d, 0), by = sum_of(&p->s, &e, &minus_d);
    for (int i = k; i < n; i++)
        by = on_one(DOUBLE, &p->s, &by, 0);
    sum_is(&p->s, &first, &by, &last);
    if (!same(d, &e) && same(&first, &last))
        fault("operation %d of %d is changed, and the last seal is not", k, n);
}

/* The oldest, the newest or an operation between, by turns. */
static int place(int n, int turn) {
    return turn % 3 == 0 ? 1 : turn % 3 == 1 ? n : (n + 1) / 2;
}

/* Lists of every length on a curve over each field, the three curves by turns. */
static void one_changed(void) {
    for (int n = 1; n <= LONGEST; n++)
        for (int field = 0; field < 2; field++)
            moves(&pools[CURVES / 2 * field + n % (CURVES / 2)], n, place(n, n / 3 + field), n + field);
    end_test("one changed of 1 to 64 commits moves the last seal by n - k doublings of E - D, wherever D and E differ");
}

void test_group(void) {
    make_pools();
    either_order();
    either_grouping();
    neutral_class();
    opposites();
    one_changed();
}
