/* A straightforward implementation in C, over GF(2^61), of the algorithms of crates/binary_field, class_rows, jacobian and stamps: the same
 * products by integer multiplication, squares by a table, roots by shifts, the chain of the inverse with its table of six squarings at
 * once, Euclid's rule, composition, reduction and halving rules, and w from the division that checks a class. What differs is how C is
 * written: tables are static and not bound at each call, and rows are handed over by their addresses. Nothing of it is proved. */
#include "plain.h"

#include <string.h>

#define MASK UINT64_C(0x1fffffffffffffff)

/* ---- elements */

static uint64_t clmul32(uint64_t a, uint64_t b) {
    uint64_t z[4] = {0}, r = 0;
    for (int i = 0; i < 4; i++)
        for (int j = 0; j < 4; j++) z[(i + j) & 3] ^= (a & UINT64_C(0x11111111) << i) * (b & UINT64_C(0x11111111) << j);
    for (int i = 0; i < 4; i++) r ^= z[i] & UINT64_C(0x1111111111111111) << i;
    return r;
}

/* the bits of a number, each a factor 0 or 1 of m, those six places apart in one product */
static uint64_t multiples(uint64_t bits, uint64_t m) {
    uint64_t sum = 0;
    for (int i = 0; i < 6; i++) sum ^= (bits & UINT64_C(0x41041041041041) << i) * m;
    return sum;
}

static uint64_t fold(uint64_t lo, uint64_t hi) {
    uint64_t first = multiples(hi >> 56, 39);
    return lo ^ (first & 31) << 56 ^ multiples((hi & UINT64_C(0xffffffffffffff)) ^ first >> 5, 39);
}

uint64_t plain_product(uint64_t a, uint64_t b) {
    uint64_t a0 = a & 0x7fffffff, b0 = b & 0x7fffffff, a1 = a >> 31, b1 = b >> 31;
    uint64_t low = clmul32(a0, b0), high = clmul32(a1, b1), middle = clmul32(a0 ^ a1, b0 ^ b1) ^ low ^ high;
    return fold((low ^ middle << 31) & MASK, middle >> 30 ^ high << 1);
}

uint64_t plain_loop_product(uint64_t a, uint64_t b) {
    uint64_t product = 0;
    for (int i = 0; i < 61; i++) {
        product ^= a & -(b >> i & 1);
        a <<= 1;
        a ^= (UINT64_C(1) << 61 | 0x27) & -(a >> 61 & 1);
    }
    return product;
}

static uint16_t spreads[256];
/* entry 16 i + j is j t^(4 i), squared six times */
static uint64_t sixfold[256];

static uint64_t spread(uint32_t n) {
    return spreads[n & 255] | (uint64_t)spreads[n >> 8 & 255] << 16 | (uint64_t)spreads[n >> 16 & 255] << 32 |
        (uint64_t)spreads[n >> 24] << 48;
}

uint64_t plain_square(uint64_t a) {
    uint64_t low = spread(a), high = spread(a >> 32);
    return fold(low & MASK, high << 3 ^ low >> 61);
}

static uint64_t evens(uint64_t n) {
    n &= UINT64_C(0x5555555555555555);
    n = (n ^ n >> 1) & UINT64_C(0x3333333333333333);
    n = (n ^ n >> 2) & UINT64_C(0x0f0f0f0f0f0f0f0f);
    n = (n ^ n >> 4) & UINT64_C(0x00ff00ff00ff00ff);
    n = (n ^ n >> 8) & UINT64_C(0x0000ffff0000ffff);
    return (n ^ n >> 16) & 0xffffffff;
}

/* the root of t is t^62 + .. + t^31 + t^6 + t^5 + t^4 + t modulo the modulus */
static uint64_t times_root_of_t(uint64_t n) {
    uint64_t run = n ^ n << 1;
    run ^= run << 2;
    run ^= run << 4;
    run ^= run << 8;
    run ^= run << 16;
    return fold((run << 31 ^ n << 1 ^ n << 4 ^ n << 5 ^ n << 6) & MASK, run >> 30);
}

uint64_t plain_root(uint64_t a) {
    return evens(a) ^ times_root_of_t(evens(a >> 1));
}

static uint64_t joined(uint64_t x, int k, uint64_t y) {
    while (k-- > 0) x = plain_square(x);
    return plain_product(x, y);
}

__attribute__((constructor)) static void fill(void) {
    for (int i = 0; i < 256; i++)
        for (int k = 0; k < 8; k++) spreads[i] |= (i >> k & 1) << 2 * k;
    for (int i = 0; i < 256; i++) {
        uint64_t x = (uint64_t)(i & 15) << 4 * (i >> 4) & MASK; /* no element has more than bit 60 */
        for (int k = 0; k < 6; k++) x = plain_square(x);
        sixfold[i] = x;
    }
}

static uint64_t multisquare(uint64_t x, int n) {
    while (n-- > 0) {
        uint64_t r = 0;
        for (int i = 0; i < 16; i++) r ^= sixfold[16 * i + (x >> 4 * i & 15)];
        x = r;
    }
    return x;
}

static uint64_t joined_sixfold(uint64_t x, int n, uint64_t y) {
    return plain_product(multisquare(x, n), y);
}

uint64_t plain_inverse(uint64_t a) {
    uint64_t a2 = joined(a, 1, a), a3 = joined(a2, 1, a), a6 = joined(a3, 3, a3), a12 = joined_sixfold(a6, 1, a6);
    uint64_t a24 = joined_sixfold(a12, 2, a12), a48 = joined_sixfold(a24, 4, a24);
    return plain_square(joined_sixfold(a48, 2, a12));
}

static uint64_t fourth_power_plus(uint64_t x, uint64_t a) {
    return plain_square(plain_square(x)) ^ a;
}

uint64_t plain_quadratic_root(uint64_t a) {
    uint64_t h3, h6, h12, h24, h;
    if ((a ^ a >> 59) & 1) return UINT64_MAX;
    h3 = fourth_power_plus(fourth_power_plus(a, a), a);
    h6 = multisquare(h3, 1) ^ h3;
    h12 = multisquare(h6, 2) ^ h6;
    h24 = multisquare(h12, 4) ^ h12;
    h = fourth_power_plus(multisquare(h24, 2) ^ h6, a);
    return h ^ (h & 1);
}

static uint64_t times(uint64_t a, uint64_t b) {
    if (a <= 1) return a ? b : 0;
    if (b <= 1) return b ? a : 0;
    return plain_product(a, b);
}

static uint64_t inverted(uint64_t a) {
    return a == 1 ? 1 : plain_inverse(a);
}

/* ---- polynomials: rows of twelve coefficients, the lowest first */

typedef struct {
    uint64_t c[12];
} Row;

static int length(const Row *a) {
    int n = 12;
    while (n > 0 && a->c[n - 1] == 0) n--;
    return n;
}

static Row constant(uint64_t c) {
    return (Row){{c}};
}

/* a + c x^shift b */
static Row add_multiple(Row a, uint64_t c, const Row *b, int shift) {
    if (c != 0)
        for (int i = 0, n = length(b); i < n; i++) a.c[shift + i] ^= times(c, b->c[i]);
    return a;
}

static Row add(Row a, const Row *b) {
    return add_multiple(a, 1, b, 0);
}

static Row scale(uint64_t c, Row a) {
    for (int i = 0, n = length(&a); i < n; i++) a.c[i] = times(c, a.c[i]);
    return a;
}

static Row multiply(const Row *a, const Row *b) {
    Row r = constant(0);
    for (int i = 0, n = length(a); i < n; i++) r = add_multiple(r, a->c[i], b, i);
    return r;
}

static Row square_row(const Row *a) {
    Row r = constant(0);
    for (int i = 0, n = length(a); i < n; i++) r.c[2 * i] = plain_square(a->c[i]);
    return r;
}

static Row root_row(const Row *a) {
    Row r = constant(0);
    for (int i = 0, n = length(a); 2 * i < n; i++) r.c[i] = plain_root(a->c[2 * i]);
    return r;
}

static Row divide(Row a, Row b, Row *quotient) {
    int top = length(&b) - 1;
    uint64_t inverse = inverted(b.c[top]);
    Row q = constant(0);
    b.c[top] = 0;
    for (int k = length(&a); top < k--;) {
        uint64_t c = times(a.c[k], inverse);
        q.c[k - top] = c;
        a.c[k] = 0;
        a = add_multiple(a, c, &b, k - top);
    }
    if (quotient) *quotient = q;
    return a;
}

static Row monic(Row a) {
    int top = length(&a) - 1;
    if (a.c[top] == 1) return a;
    uint64_t inverse = inverted(a.c[top]);
    a.c[top] = 0;
    a = scale(inverse, a);
    a.c[top] = 1;
    return a;
}

/* the quotient of a by a monic b, without its remainder */
static Row quotient_of(const Row *a, const Row *b) {
    int top = length(b) - 1;
    Row q = constant(0);
    for (int k = length(a); top < k--;) {
        uint64_t c = a->c[k];
        for (int j = k - top + 1; j <= k; j++) c ^= times(q.c[j], b->c[k - j]);
        q.c[k - top] = c;
    }
    return q;
}

typedef struct {
    Row g, s, t;
} Combination;

static Combination bezout(const Row *a, const Row *b) {
    int n = length(b);
    if (n == 0) {
        int m = length(a);
        if (m == 0) return (Combination){constant(0), constant(0), constant(0)};
        uint64_t c = inverted(a->c[m - 1]);
        return (Combination){scale(c, *a), constant(c), constant(0)};
    }
    if (n == 1) return (Combination){constant(1), constant(0), constant(inverted(b->c[0]))};
    Row q, rest = divide(*a, *b, &q);
    Combination r = bezout(b, &rest);
    Row product = multiply(&r.t, &q);
    return (Combination){r.g, r.t, add(r.s, &product)};
}

/* ---- classes */

typedef struct {
    Row u, v;
} Pair;

static Row f_row(const uint64_t *f) {
    return (Row){{f[2], f[1], 0, f[0], 0, 0, 0, 1}};
}

static Pair pair_of(const uint64_t *a) {
    Pair p = {constant(0), constant(0)};
    memcpy(p.u.c, a + 1, a[0] * sizeof *a);
    memcpy(p.v.c, a + 4, a[0] * sizeof *a);
    p.u.c[a[0]] = 1;
    return p;
}

static uint32_t store(const Pair *p, uint64_t *r) {
    int n = length(&p->u) - 1;
    memset(r, 0, 7 * sizeof *r);
    r[0] = n;
    memcpy(r + 1, p->u.c, n * sizeof *r);
    memcpy(r + 4, p->v.c, n * sizeof *r);
    return 0;
}

static Row value(const Row *f, const Row *v) {
    Row square = square_row(v);
    return add(add(square, v), f);
}

/* The refusal that is due; where none is, w is (v^2 + v + f) / u. */
static uint32_t due(const uint64_t *f, const uint64_t *a, Row *w) {
    for (int i = 0; i < 3; i++)
        if (f[i] > MASK) return 107;
    if (a[0] > 3) return 104;
    for (int i = a[0]; i < 3; i++)
        if (a[1 + i] != 0 || a[4 + i] != 0) return 104;
    for (int i = 1; i < 7; i++)
        if (a[i] > MASK) return 110;
    Pair p = pair_of(a);
    Row fs = f_row(f), rest = divide(value(&fs, &p.v), p.u, w);
    return length(&rest) == 0 ? 0 : 111;
}

static Row cofactor(const Row *f, const Pair *a) {
    Row all = value(f, &a->v);
    return quotient_of(&all, &a->u);
}

static Pair step(const Pair *a, const Row *w) {
    Pair r;
    Row other = a->v;
    other.c[0] ^= 1;
    r.u = monic(*w);
    r.v = divide(other, r.u, 0);
    return r;
}

static Pair reduce_with(const Row *f, const Pair *a, const Row *w) {
    Pair once = step(a, w);
    if (length(&once.u) <= 4) return once;
    Row next = cofactor(f, &once);
    return step(&once, &next);
}

static Pair double_rows(const Row *f, const Pair *a, Row w) {
    Row q, square = square_row(&a->v);
    Pair p;
    p.u = square_row(&a->u);
    p.v = divide(add(square, f), p.u, &q);
    if (length(&a->u) <= 2) return p;
    Row factor = square_row(&q), product = multiply(&factor, &p.u);
    w = square_row(&w);
    w = add(add(w, &q), &product);
    return reduce_with(f, &p, &w);
}

static Pair sum_rows(const Row *f, const Pair *a, const Pair *b) {
    Combination first = bezout(&a->u, &b->u);
    Row sum = add(a->v, &b->v), m, d1 = a->u, d2 = b->u;
    if (length(&first.g) == 1) {
        m = multiply(&first.s, &sum);
    } else {
        Row c = sum, w = cofactor(f, a);
        c.c[0] ^= 1;
        Combination second = bezout(&first.g, &c);
        Row s1 = multiply(&second.s, &first.s), p = multiply(&s1, &sum), q = multiply(&second.t, &w);
        m = add(p, &q);
        divide(a->u, second.g, &d1);
        divide(b->u, second.g, &d2);
    }
    Row k = divide(m, d2, 0), p = multiply(&d1, &k);
    Pair joint = {multiply(&d1, &d2), constant(0)};
    joint.v = divide(add(a->v, &p), joint.u, 0);
    if (length(&joint.u) <= 4) return joint;
    Row w = cofactor(f, &joint);
    return reduce_with(f, &joint, &w);
}

/* [a, v modulo a] for a square p = a^2 */
static Pair root_pair(const Row *p, const Row *v) {
    Pair r;
    r.u = root_row(p);
    r.v = divide(*v, r.u, 0);
    return r;
}

/* v + k u + 1 */
static Row stepped(Row v, const Row *k, const Row *u) {
    Row p = multiply(k, u);
    v = add(v, &p);
    v.c[0] ^= 1;
    return v;
}

/* w + k + m u */
static Row lifted(const Row *w, const Row *k, const Row *m, const Row *u) {
    Row p = multiply(m, u);
    return add(add(*w, k), &p);
}

static Pair half_rows(const Pair *a, Row w) {
    const Row *u = &a->u, *v = &a->v;
    int n = length(u);
    if (n <= 1) return *a;
    Row k = constant(0), m = constant(0), p, o;
    if (n == 2) {
        k.c[2] = plain_root(w.c[5]);
        k.c[1] = plain_root(w.c[3]);
        m.c[4] = w.c[5], m.c[2] = w.c[3], m.c[0] = w.c[1] ^ k.c[1];
        k.c[0] = plain_root(m.c[0]);
        p = lifted(&w, &k, &m, u);
        o = stepped(*v, &k, u);
        return root_pair(&p, &o);
    }
    if (n == 3) {
        uint64_t u1 = u->c[1];
        if (u1 == 0) return root_pair(u, v);
        uint64_t i = inverted(u1);
        k.c[2] = plain_root(i);
        k.c[1] = plain_root(times(w.c[3], i));
        m.c[4] = 1, m.c[2] = w.c[3], m.c[0] = w.c[1] ^ k.c[1];
        k.c[0] = plain_root(times(m.c[0], i));
        Row cw = scale(u1, w), ck = scale(u1, k);
        p = lifted(&cw, &ck, &m, u);
        o = stepped(*v, &k, u);
        return root_pair(&p, &o);
    }
    uint64_t r = plain_root(w.c[3]);
    k.c[0] = r, m.c[0] = w.c[3];
    Row s = lifted(&w, &k, &m, u);
    uint64_t t = plain_root(s.c[1]);
    if (t == 0) {
        o = stepped(*v, &k, u);
        return root_pair(&s, &o);
    }
    uint64_t i = inverted(t), g = u->c[1] ^ i, q = plain_root(g);
    k.c[1] = t, k.c[0] = times(t, q), m.c[2] = 1, m.c[0] = g;
    Row eu = scale(s.c[1], *u), y = {{q, 1}};
    p = lifted(&eu, &k, &m, &s);
    Pair half;
    half.u = root_row(&p);
    Row b = divide(s, half.u, 0), yb = multiply(&y, &b), z = divide(yb, half.u, 0), h = add(*u, &half.u);
    half.v = add_multiple(add_multiple(*v, r, &h, 0), i, &z, 0);
    return half;
}

static Pair opposite(Pair a) {
    if (length(&a.u) > 1) a.v.c[0] ^= 1;
    return a;
}

/* ---- the calls */

uint32_t plain_membership(const uint64_t *f, const uint64_t *a) {
    return due(f, a, 0);
}

uint32_t plain_double(const uint64_t *f, const uint64_t *a, uint64_t *r) {
    Row fs = f_row(f), w;
    uint32_t n = due(f, a, &w);
    if (n) return n;
    Pair p = pair_of(a), q = double_rows(&fs, &p, w);
    return store(&q, r);
}

uint32_t plain_half(const uint64_t *f, const uint64_t *a, uint64_t *r) {
    Row w;
    uint32_t n = due(f, a, &w);
    if (n) return n;
    Pair p = pair_of(a), q = half_rows(&p, w);
    return store(&q, r);
}

/* w is that of the first class */
static uint32_t due_of_two(const uint64_t *f, const uint64_t *a, const uint64_t *b, Row *w) {
    uint32_t n = due(f, a, w);
    return n ? n : due(f, b, 0);
}

uint32_t plain_sum(const uint64_t *f, const uint64_t *a, const uint64_t *b, uint64_t *r) {
    uint32_t n = due_of_two(f, a, b, 0);
    if (n) return n;
    Row fs = f_row(f);
    Pair p = pair_of(a), q = pair_of(b), s = sum_rows(&fs, &p, &q);
    return store(&s, r);
}

uint32_t plain_double_and_add(const uint64_t *f, const uint64_t *a, const uint64_t *b, uint64_t *r) {
    Row fs = f_row(f), w;
    uint32_t n = due_of_two(f, a, b, &w);
    if (n) return n;
    Pair p = pair_of(a), q = pair_of(b), twice = double_rows(&fs, &p, w), s = sum_rows(&fs, &twice, &q);
    return store(&s, r);
}

uint32_t plain_subtract_and_halve(const uint64_t *f, const uint64_t *a, const uint64_t *b, uint64_t *r) {
    uint32_t n = due_of_two(f, a, b, 0);
    if (n) return n;
    Row fs = f_row(f);
    Pair p = pair_of(a), q = opposite(pair_of(b)), s = sum_rows(&fs, &p, &q), h = half_rows(&s, cofactor(&fs, &s));
    return store(&h, r);
}

uint32_t plain_stamp(const uint64_t *f, uint64_t stamp, uint64_t *r) {
    Row row = f_row(f);
    if (f[0] > MASK || f[1] > MASK || f[2] > MASK) return 107;
    if (stamp >> 58) return 115;
    for (uint64_t x = 8 * stamp; x < 8 * stamp + 8; x++) {
        uint64_t value = 0, y;
        for (int i = 11; i >= 0; i--) value = row.c[i] ^ (value ? plain_product(value, x) : 0);
        y = plain_quadratic_root(value);
        if (y == UINT64_MAX) continue;
        memset(r, 0, 7 * sizeof *r);
        r[0] = 1, r[1] = x, r[4] = y;
        return 0;
    }
    return 116;
}

uint32_t plain_multiple(const uint64_t *f, const uint64_t *a, uint64_t n, uint64_t *r) {
    uint64_t so_far[7] = {0};
    uint32_t refusal = plain_membership(f, a);
    if (refusal) return refusal;
    if (n >> 61) return 118;
    for (int i = n ? 64 - __builtin_clzll(n) : 0; i-- > 0;) {
        refusal = n >> i & 1 ? plain_double_and_add(f, so_far, a, r) : plain_double(f, so_far, r);
        if (refusal) return refusal;
        memcpy(so_far, r, sizeof so_far);
    }
    memcpy(r, so_far, sizeof so_far);
    return 0;
}

uint32_t plain_halvings(const uint64_t *f, const uint64_t *a, uint64_t k, uint64_t *r) {
    uint64_t so_far[7];
    uint32_t refusal = plain_membership(f, a);
    if (refusal) return refusal;
    if (k > 64) return 119;
    memcpy(r, a, sizeof so_far);
    while (k-- > 0) {
        memcpy(so_far, r, sizeof so_far);
        refusal = plain_half(f, so_far, r);
        if (refusal) return refusal;
    }
    return 0;
}
