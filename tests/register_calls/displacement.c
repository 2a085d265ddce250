/* One operation changed in a list of commits in place (document 02, request 7). How far the seal moves is told by calls
 * in place too: an undo of a class and a commit of the neutral one leave the seal less the class, and a commit of the
 * neutral class doubles. */
#include "classes.h"
#include "count.h"
#include "lent.h"
#include "points.h"

#define LONGEST 64
#define POOL 6

/* A call that has to be accepted. */
static void make(enum call call, struct seal_register *r, struct seal_class operation) {
    uint32_t got = lend(call, r, operation, calls() % 2 == 0);
    if (got != 0)
        fault("%s of a class in a list: got %u", call == COMMIT ? "commit" : "undo", got);
}

/* The first less the second. */
static struct seal_class less(struct seal_curve curve, struct seal_class first, struct seal_class second) {
    struct seal_register r = {curve, 1, first, 0};
    make(UNDO, &r, second);
    make(COMMIT, &r, neutral);
    return r.seal;
}

static struct seal_class doubled(struct seal_curve curve, struct seal_class class, int times) {
    struct seal_register r = {curve, 0, class, 0};
    for (int i = 0; i < times; i++)
        make(COMMIT, &r, neutral);
    return r.seal;
}

/* Three points, and classes of degree 0, 2 and 3: neutral, twice the first point, and that plus the second. */
static void make_pool(int which, struct seal_class pool[POOL]) {
    const struct seal_class *point = with_points[which].point;
    struct seal_register r = {with_points[which].curve, 0, point[0], 0};
    for (int i = 0; i < POINTS; i++)
        pool[i] = point[i];
    pool[3] = neutral;
    pool[4] = doubled(r.curve, point[0], 1);
    make(COMMIT, &r, point[1]);
    pool[5] = r.seal;
    if (pool[4].degree != 2 || pool[5].degree != 3)
        fault("curve %d: classes of other degrees", which);
}

/* The operations of a list of n commits, from 1, the oldest. */
static struct seal_class operation(const struct seal_class pool[POOL], int n, int i) {
    return pool[(n + 5 * i + i / 4) % POOL];
}

/* The seal after n commits, of which operation k is the class given; where k is 0, none is changed. Refused commits
 * stand between them, at places that depend on k. */
static struct seal_class last_seal(struct seal_curve curve, const struct seal_class pool[POOL], int n, int k,
                                   struct seal_class changed) {
    struct seal_register r = {curve, (uint64_t)n, pool[n % POOL], (uint64_t)(n % 3)};
    for (int i = 1; i <= n; i++) {
        if ((i + k) % 5 == 0 && lend(COMMIT, &r, wrong(1, curve.degree), 0) != SEAL_CLASS_COEFFICIENT)
            fault("commit of what is no class in a list");
        make(COMMIT, &r, i == k ? changed : operation(pool, n, i));
    }
    return r.seal;
}

/* Where operation k alone is changed from D to E, the last seal moves by n - k doublings of E - D; and it moves where
 * the two are different classes. */
static void moves(struct seal_curve curve, const struct seal_class pool[POOL], int n, int k, struct seal_class e) {
    struct seal_class d = operation(pool, n, k);
    struct seal_class first = last_seal(curve, pool, n, 0, neutral), last = last_seal(curve, pool, n, k, e);
    struct seal_class by = doubled(curve, less(curve, e, d), n - k);
    if (!same_class(less(curve, last, first), by))
        fault("operation %d of %d is changed, and the last seal moves by something else", k, n);
    if (!same_class(d, e) && same_class(first, last))
        fault("operation %d of %d is changed, and the last seal is not", k, n);
}

/* The oldest, the newest or an operation between, by turns. */
static int place(int n, int turn) {
    return turn % 3 == 0 ? 1 : turn % 3 == 1 ? n : (n + 1) / 2;
}

/* Lists of every length are made on a curve over each field, the three curves by turns. */
void test_displacement(void) {
    static struct seal_class pools[CURVES][POOL];
    for (int which = 0; which < CURVES; which++)
        make_pool(which, pools[which]);
    end_test("classes of degree 0 to 3 on six curves, made by commits");
    for (int n = 1; n <= LONGEST; n++)
        for (int field = 0; field < 2; field++) {
            int which = CURVES / 2 * field + n % (CURVES / 2), k = place(n, n / 3 + field);
            moves(with_points[which].curve, pools[which], n, k, pools[which][(n + field) / 5 % POOL]);
        }
    end_test("one changed of 1 to 64 commits moves the last seal by n - k doublings of E - D, wherever D and E differ");
}
