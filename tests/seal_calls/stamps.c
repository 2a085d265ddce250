/* The class of a stamp (document 02, request 2), and its refusals 115 and 116. */
#include "edges.h"
#include "records.h"
#include "seal.h"

/* The least number that is no stamp: 2^(d-3). */
static uint64_t limit(int d) {
    return (uint64_t)1 << (d - 3);
}

static struct bytes curve_record(int d, uint64_t f3, uint64_t f1, uint64_t f0) {
    struct bytes b = {0};
    put_degree(&b, d);
    put_curve(&b, f3, f1, f0);
    return b;
}

/* The class is one of the curve, and a commit takes it as an operation, after which it is the seal: the double of the
 * neutral class is neutral. */
static void class_is_of_use(const struct bytes *curve, struct seal_class class) {
    struct bytes alone = *curve, commit = *curve, expected = {0};
    put_class(&alone, SEAL_TAG_CLASS, class);
    expect(MEMBERSHIP, alone.at, alone.length, 0, 0, NULL);
    put_register(&commit, 0, 0, neutral);
    put_class(&commit, SEAL_TAG_OPERATION, class);
    put_register(&expected, 1, 0, class);
    expect(COMMIT, commit.at, commit.length, 61, (uint32_t)expected.length, expected.at);
}

/* Over both fields f(0) = 0 on x^7, with the root 0. On x^7 + 1 f(0) = 1 has no root, since the degrees are odd, and
 * f(1) = 0. With f0 = t^2 + t the roots are t and t + 1. The others were worked out by trace and half-trace. Every
 * candidate is once the first that has a root, but the eighth, which never is: an even number of the eight has one. */
static void worked_stamps(void) {
    static const struct {
        int d;
        uint64_t f3, f1, f0, stamp, x, y;
    } cases[] = {
        {5, 0, 0, 0, 0, 0, 0},
        {5, 0, 0, 0, 1, 12, 18},
        {5, 0, 0, 0, 2, 16, 12},
        {5, 0, 0, 0, 3, 24, 22},
        {5, 0, 0, 1, 0, 1, 0},
        {5, 0, 0, 1, 1, 8, 26},
        {5, 0, 0, 1, 2, 18, 24},
        {5, 0, 0, 1, 3, 25, 30},
        {5, 0, 0, 6, 0, 0, 2},
        {5, 0, 1, 0, 3, 27, 16}, /* the fourth candidate */
        {5, 0, 13, 0, 2, 21, 0}, /* the sixth */
        {5, 0, 2, 0, 1, 14, 20}, /* the seventh */
        {5, 31, 31, 31, 3, 25, 24},
        {61, 0, 0, 0, 0, 0, 0},
        {61, 0, 0, 0, 1, 8, 0x13c808a013a1ee0},
        {61, 0, 0, 0, 2, 16, 0x129fa6407f23380},
        {61, 0, 0, 0, 700, 0x15e1, 0xa3b0e0cb5fbf4c},
        {61, 0, 0, 0, 769, 0x180a, 0x7c3f1adfb7bdd22},
        {61, 0, 0, 0, 772, 0x1824, 0x8db2ff4a16698e8},
        {61, 0, 0, 0, 2065, 0x408e, 0xe65dab00f1e2df4}, /* the seventh */
        {61, 0, 0, 0, (uint64_t)1 << 57, 0x1000000000000000, 0x75ab6be8ca7ce0a},
        {61, 0, 0, 0, ((uint64_t)1 << 58) - 2, 0x1ffffffffffffff0, 0x1312e336b8e2a218},
        {61, 0, 0, 0, ((uint64_t)1 << 58) - 1, 0x1ffffffffffffff8, 0x1532537c7bba5d08},
        {61, 0, 0, 1, 0, 1, 0},
        {61, 0, 0, 1, 1, 9, 0x70c48c2de7d42e2},
        {61, 0, 0, 1, 701, 0x15e9, 0x1be0568f3dc4d3e4},
        {61, 0, 0, 1, 768, 0x1802, 0x921258987bf8c10},
        {61, 0, 0, 1, 773, 0x182c, 0x1513e7e6e7cb2cc2},
        {61, 0, 0, 1, 2049, 0x400e, 0x1ccd96ad9e0f0f20},
        {61, 0, 0, 1, ((uint64_t)1 << 58) - 1, 0x1ffffffffffffff9, 0x990daab09ad92ec},
        {61, 0, 0, 6, 0, 0, 2},
    };
    for (size_t i = 0; i < sizeof cases / sizeof cases[0]; i++) {
        struct bytes in = curve_record(cases[i].d, cases[i].f3, cases[i].f1, cases[i].f0), out = {0};
        struct seal_class class = {1, {cases[i].x, 0, 0}, {cases[i].y, 0, 0}};
        put_class(&out, SEAL_TAG_CLASS, class);
        for (size_t more = 0; more < 3; more++)
            expect_number(STAMP, in.at, in.length, cases[i].stamp, 51 + 40 * more, 19, out.at);
        expect_number(STAMP, in.at, in.length, cases[i].stamp, 50, 101, NULL);
        class_is_of_use(&in, class);
    }
    end_test("stamps that were worked out: their classes, which are accepted and can be committed");
}

/* A stamp that is refused with an input, and what comes before: an output of 50 bytes, a byte more of input, a
 * coefficient of 2^d, another degree, a head that is cut. */
static void stamp_refused(int d, uint64_t f3, uint64_t f1, uint64_t f0, uint64_t stamp, uint32_t number) {
    struct bytes in = curve_record(d, f3, f1, f0), longer = in, cut = {0};
    struct bytes coefficient = curve_record(d, f3, f1, (uint64_t)1 << d), degree = curve_record(d + 1, f3, f1, f0);
    put(&longer, SEAL_TAG_CLASS);
    put_degree(&cut, d);
    expect_number(STAMP, in.at, in.length, stamp, 51, number, NULL);
    expect_number(STAMP, in.at, in.length, stamp, 200, number, NULL);
    expect_number(STAMP, in.at, in.length, stamp, 50, 101, NULL);
    expect_number(STAMP, NULL, 0, stamp, 50, 101, NULL);
    expect_number(STAMP, longer.at, longer.length, stamp, 51, 112, NULL);
    expect_number(STAMP, coefficient.at, coefficient.length, stamp, 51, 107, NULL);
    expect_number(STAMP, degree.at, degree.length, stamp, 51, 106, NULL);
    expect_number(STAMP, cut.at, cut.length, stamp, 51, 102, NULL);
}

/* On the third curve of each degree stamp 0 has no class, and 2^(d-3) has the same candidates but for bits that no
 * element has. */
static void stamps_too_large(void) {
    static const uint64_t curves[2][3][3] = {
        {{0, 0, 0}, {0, 0, 1}, {4, 5, 1}},
        {{0, 0, 0}, {0, 0, 1}, {0, 1, 1}},
    };
    for (int d = 0; d < 2; d++)
        for (int c = 0; c < 3; c++) {
            const uint64_t *f = curves[d][c], least = limit(degrees[d]);
            for (uint64_t stamp = least; stamp != 0; stamp *= 2)
                stamp_refused(degrees[d], f[0], f[1], f[2], stamp, SEAL_STAMP_TOO_LARGE);
            stamp_refused(degrees[d], f[0], f[1], f[2], least + 1, SEAL_STAMP_TOO_LARGE);
            stamp_refused(degrees[d], f[0], f[1], f[2], UINT64_MAX, SEAL_STAMP_TOO_LARGE);
        }
    end_test("115: 2^(d-3), every power of 2 above it and more, before 116, after all that is wrong with the input");
}

static void stamps_without_class(void) {
    stamp_refused(5, 12, 0, 0, 1, SEAL_STAMP_WITHOUT_CLASS);
    stamp_refused(5, 1, 1, 0, 1, SEAL_STAMP_WITHOUT_CLASS);
    stamp_refused(5, 4, 5, 1, 0, SEAL_STAMP_WITHOUT_CLASS);
    stamp_refused(61, 0, 0, 0, 785, SEAL_STAMP_WITHOUT_CLASS);
    stamp_refused(61, 0, 0, 1, 784, SEAL_STAMP_WITHOUT_CLASS);
    stamp_refused(61, 0, 1, 1, 0, SEAL_STAMP_WITHOUT_CLASS);
    end_test("116: stamps of which no candidate has a root, after all that is wrong with the input");
}

void test_stamps(void) {
    worked_stamps();
    stamps_too_large();
    stamps_without_class();
}
