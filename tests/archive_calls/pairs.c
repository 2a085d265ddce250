/* The field 0x48: which pairs are refused with 122, that all others are copied, and which operations they hold: 124. */
#include "edges.h"
#include "models.h"

static int follows_rules(const struct model *m, const struct pair *p) {
    return p->earlier >= 1 && p->earlier < p->later && p->later <= m->count;
}

static int ascends(const struct pair *p, const struct pair *q) {
    return p->later < q->later || (p->later == q->later && p->earlier < q->earlier);
}

/* Do a model's pairs keep the rules? */
static int are_right(const struct model *m) {
    int right = 1;
    for (int i = 0; i < m->pairs; i++)
        right &= follows_rules(m, &m->pair[i]) && (i == 0 || ascends(&m->pair[i - 1], &m->pair[i]));
    return right;
}

/* 122 where they do not, whatever k is; else what is due for operation k. */
static void expect_pairs(const struct model *m, uint64_t k) {
    if (are_right(m)) {
        expect_without(m, k);
        return;
    }
    struct bytes in = archive_of(m);
    refused(&in, k, 122);
}

static void one_pair(void) {
    for (int d = 0; d < 2; d++)
        for (int count = 0; count <= 5; count++)
            for (int later = 0; later <= 7; later++)
                for (int earlier = 0; earlier <= 7; earlier++) {
                    struct model m = model(degrees[d], count);
                    add_pair(&m, later, earlier);
                    for (uint64_t k = 0; k <= (uint64_t)count + 1; k++)
                        expect_pairs(&m, k);
                }
    end_test("122: every pair of numbers up to 7 with 0 to 5 operations; with fewer than two operations every pair");
}

static void two_pairs(void) {
    for (int first = 0; first < 36; first++)
        for (int second = 0; second < 36; second++) {
            struct model m = model(5, 4);
            add_pair(&m, first / 6, first % 6);
            add_pair(&m, second / 6, second % 6);
            expect_pairs(&m, (uint64_t)(first % 4 + 1));
            expect_pairs(&m, (uint64_t)(second % 6));
        }
    end_test("122: every two pairs of numbers up to 5 with 4 operations, ascending or not");
}

/* Numbers of which both bytes count; with 513 operations, most of them neutral. */
static void wide_numbers(void) {
    static const int numbers[] = {0, 1, 255, 256, 257, 511, 512, 513, 514, 65535};
    enum { NUMBERS = sizeof numbers / sizeof numbers[0] };
    struct model m = model(5, 513);
    for (int k = 1; k <= m.count; k++)
        m.operation[k] = k % 256 <= 1;
    for (int i = 0; i < NUMBERS; i++)
        for (int j = 0; j < NUMBERS; j++) {
            m.pairs = 0;
            add_pair(&m, numbers[i], numbers[j]);
            expect_pairs(&m, (uint64_t)numbers[j]);
            m.pairs = 0; /* before one that is right, so that it has to ascend to it */
            add_pair(&m, numbers[i], numbers[j]);
            add_pair(&m, 512, 257);
            expect_pairs(&m, 257);
            m.pairs = 0; /* and after it */
            add_pair(&m, 512, 257);
            add_pair(&m, numbers[i], numbers[j]);
            expect_pairs(&m, (uint64_t)numbers[j]);
        }
    end_test("122: numbers of two bytes, with 513 operations");
}

/* 2,048 pairs, of which one is made wrong, at each of some places; 2,049 have a length that is not allowed. */
static void most_pairs(void) {
    for (int d = 0; d < 2; d++) {
        struct model m = model(degrees[d], 70);
        for (int later = 2; m.pairs < MOST_PAIRS; later++)
            for (int earlier = 1; earlier < later && m.pairs < MOST_PAIRS; earlier++)
                add_pair(&m, later, earlier);
        for (uint64_t k = 1; k <= 70; k += 23)
            expect_pairs(&m, k);
        for (int at = 0; at < MOST_PAIRS; at += at < 3 ? 1 : at == MOST_PAIRS - 2 ? 1 : 409) {
            struct model wrong = m;
            wrong.pair[at] = at % 2 == 0 ? m.pair[at + 1 < MOST_PAIRS ? at + 1 : at - 1] : (struct pair){0, 0};
            expect_pairs(&wrong, 70);
        }
        struct model last = m;
        last.pair[MOST_PAIRS - 1].later = 71;
        expect_pairs(&last, 70);
        add_pair(&m, 70, 69);
        struct bytes in = archive_of(&m);
        refused(&in, 70, 104);
    }
    end_test("2,048 pairs are copied and each is checked; 2,049 are 104");
}

/* Every set of pairs of four operations, each of which is neutral or not, and every k. */
static void every_set(void) {
    static const struct pair all[6] = {{2, 1}, {3, 1}, {3, 2}, {4, 1}, {4, 2}, {4, 3}};
    for (int set = 0; set < 64; set++)
        for (int neutral_ones = 0; neutral_ones < 16; neutral_ones++) {
            struct model m = model(set % 2 == 0 ? 5 : 61, 4);
            for (int i = 0; i < 6; i++)
                if (set >> i & 1)
                    add_pair(&m, all[i].later, all[i].earlier);
            for (int k = 1; k <= 4; k++)
                if (neutral_ones >> (k - 1) & 1)
                    m.operation[k] = 0;
            for (uint64_t k = 0; k <= 5; k++)
                expect_without(&m, k);
        }
    end_test("124: every set of pairs of four operations, each neutral or not; neutral ones hold nothing and are held");
}

/* 104, 105, 122 and 112 of 0x48 before 123 and 124, in this order. */
static void order(void) {
    static const uint64_t ks[] = {0, 1, 2, 3, 4, UINT64_MAX};
    for (int d = 0; d < 2; d++)
        for (size_t i = 0; i < sizeof ks / sizeof ks[0]; i++) {
            struct model m = model(degrees[d], 3);
            add_pair(&m, 3, 1); /* operation 1 is held */
            const struct bytes right = archive_of(&m);
            struct bytes b = right;
            size_t head = b.length - 7;
            b.at[head + 6] = 0; /* the pair (3, 0) */
            refused(&b, ks[i], 122);
            put(&b, 0x48);
            refused(&b, ks[i], 122);
            b.length = right.length - 1;
            refused(&b, ks[i], 105);
            b.at[head + 2] = 8; /* the length of two pairs, with the first alone, a wrong one */
            b.length = right.length;
            refused(&b, ks[i], 105);
            b.at[head + 2] = 3;
            refused(&b, ks[i], 104);
            b.at[head + 2] = 0; /* no pairs, and the pair after it */
            refused(&b, ks[i], 104);
            b.length = head + 3; /* no pairs, and nothing after it */
            refused(&b, ks[i], 104);
            b = right;
            put(&b, 0);
            refused(&b, ks[i], 112);
            expect_without(&m, ks[i]);
        }
    end_test("0x48: 104, 105, 122 and 112 in this order, before 123 and 124; without pairs 104");
}

/* An operation that two hold is free when both are suppressed, in either order, and held again in no way. */
static void freed(void) {
    for (int d = 0; d < 2; d++)
        for (int first = 2; first <= 4; first += 2) {
            struct model m = model(degrees[d], 5), once, twice;
            add_pair(&m, 2, 1);
            add_pair(&m, 4, 1);
            add_pair(&m, 5, 3);
            int second = 6 - first;
            once = without(&m, first);
            twice = without(&once, second);
            struct bytes in = archive_of(&m);
            refused(&in, 1, 124);
            in = suppressed(&in, (uint64_t)first);
            refused(&in, 1, 124);
            in = suppressed(&in, (uint64_t)second);
            struct model last = without(&twice, 1);
            struct bytes expected = archive_of(&last);
            writes(&in, 1, &expected);
            refused(&in, 3, 124);
            expect_without(&twice, 1);
        }
    end_test("an operation is held until the later ones that are paired to it are suppressed");
}

void test_pairs(void) {
    one_pair();
    two_pairs();
    wide_numbers();
    most_pairs();
}

void test_held(void) {
    every_set();
    order();
    freed();
}
