/* Multiples and repeated halves of a class (document 02, request 4), and their refusals 118 and 119. */
#include "edges.h"
#include "samples.h"
#include "seal.h"
#include "seal_licence.h"

/* The largest n. */
#define MOST (SEAL_MULTIPLE_LIMIT - 1)

static struct bytes class_record(int d, uint64_t f0, struct seal_class class) {
    struct bytes b = {0};
    put_degree(&b, d);
    put_curve(&b, 0, 0, f0);
    put_class(&b, SEAL_TAG_CLASS, class);
    return b;
}

/* The call with a number has to write a class, on f = x^7 + f0. Its areas lie at the one end or at the other, by
 * turns. */
static void gives(enum call call, int d, uint64_t f0, struct seal_class class, uint64_t number,
                  struct seal_class expected) {
    struct bytes in = class_record(d, f0, class), out = {0};
    put_class(&out, SEAL_TAG_CLASS, expected);
    expect_at(call, in.at, in.length, number, 51, (uint32_t)out.length, out.at, number % 2 == 0);
}

/* On f = x^7 three doublings bring [x, 0] back (examples 1 to 3), so that 7 times it is neutral. 4 times is [x^3, 1], 3
 * times its opposite, and so on. 2^61 - 1 is 1 modulo 7, and 2^60 too. */
static void worked_multiples(void) {
    const struct seal_class of_x[7] = {neutral, x_0, xx_0, xxx_0, xxx_1, xx_1, x_1}, doubles[4] = {b1_0, b2, b3_0, b4};
    for (int d = 0; d < 2; d++) {
        for (uint64_t n = 0; n <= 70; n++) {
            gives(MULTIPLE, degrees[d], 0, x_0, n, of_x[n % 7]);
            gives(MULTIPLE, degrees[d], 0, neutral, n, neutral);
        }
        for (uint64_t n = MOST - 6; n <= MOST; n++)
            gives(MULTIPLE, degrees[d], 0, x_0, n, of_x[n % 7]);
        for (int power = 7; power < 61; power++)
            gives(MULTIPLE, degrees[d], 0, x_0, (uint64_t)1 << power, of_x[((uint64_t)1 << power) % 7]);
        gives(MULTIPLE, degrees[d], 0, x_1, MOST, x_1);
        gives(MULTIPLE, degrees[d], 0, xxx_0, MOST - 1, neutral);
        gives(MULTIPLE, degrees[d], 0, neutral, MOST, neutral);
        for (int i = 0; i < 4; i++) /* examples 5 to 7 */
            gives(MULTIPLE, degrees[d], 1, b1_0, (uint64_t)1 << i, doubles[i]);
        gives(MULTIPLE, degrees[d], 1, b2, 4, b4);
    }
    end_test("multiples that were worked out: [x, 0] times 0 to 70, powers of 2, and 2^61 - 7 to 2^61 - 1");
}

static void worked_halvings(void) {
    const struct seal_class of_x[3] = {x_0, xxx_1, xx_0}, of_b4[4] = {b4, b3_0, b2, b1_0};
    for (int d = 0; d < 2; d++) {
        for (uint64_t k = 0; k <= SEAL_HALVINGS_LIMIT; k++) {
            if (degrees[d] == 5 || k < 8 || k > 61)
                gives(HALVINGS, degrees[d], 0, x_0, k, of_x[k % 3]);
            gives(HALVINGS, degrees[d], 0, neutral, k, neutral);
        }
        gives(HALVINGS, degrees[d], 0, x_1, SEAL_HALVINGS_LIMIT, xxx_0);
        for (uint64_t k = 0; k < 4; k++) /* examples 7, 6 and 5 */
            gives(HALVINGS, degrees[d], 1, b4, k, of_b4[k]);
    }
    end_test("halvings that were worked out: [x, 0] halved up to 64 times, and examples 5 to 7 in a row");
}

/* A number that is refused with an accepted record, and what comes before: an output of 50 bytes, a head that is cut, a
 * wrong tag, a wrong length, a body that is cut, another degree, coefficients of 2^d, a pair that is no class, and a
 * byte more of input. */
static void number_refused(enum call call, int d, uint64_t number, uint32_t refusal) {
    const uint64_t least = (uint64_t)1 << d, row[2] = {0, least};
    struct record r = accepted(call, d);
    struct bytes in = class_record(d, 0, x_0), without = class_record(d, 0, neutral), wrong = in;
    expect_number(call, in.at, in.length, number, 51, refusal, NULL);
    expect_number(call, in.at, in.length, number, 200, refusal, NULL);
    expect_number(call, without.at, without.length, number, 51, refusal, NULL);
    expect_number(call, in.at, in.length, number, 50, 101, NULL);
    expect_number(call, NULL, 0, number, 50, 101, NULL);
    expect_number(call, in.at, without.length - 1, number, 51, 102, NULL);
    wrong.at[31] = SEAL_TAG_OPERATION;
    expect_number(call, wrong.at, wrong.length, number, 51, 103, NULL);
    wrong = in;
    wrong.at[33]++;
    expect_number(call, wrong.at, wrong.length, number, 51, 104, NULL);
    expect_number(call, in.at, in.length - 1, number, 51, 105, NULL);
    wrong = class_record(d + 1, 0, x_0);
    expect_number(call, wrong.at, wrong.length, number, 51, 106, NULL);
    wrong = class_record(d, least, x_0);
    expect_number(call, wrong.at, wrong.length, number, 51, 107, NULL);
    wrong = with_row(&r, 2, row, 2);
    expect_number(call, wrong.at, wrong.length, number, 51, 110, NULL);
    wrong = class_record(d, 0, off);
    expect_number(call, wrong.at, wrong.length, number, 51, 111, NULL);
    put(&in, SEAL_TAG_CLASS);
    expect_number(call, in.at, in.length, number, 51, 112, NULL);
}

static void multiples_too_large(void) {
    for (int d = 0; d < 2; d++) {
        for (uint64_t n = SEAL_MULTIPLE_LIMIT; n != 0; n *= 2) {
            number_refused(MULTIPLE, degrees[d], n, SEAL_MULTIPLE_TOO_LARGE);
            number_refused(MULTIPLE, degrees[d], n + 1, SEAL_MULTIPLE_TOO_LARGE);
        }
        number_refused(MULTIPLE, degrees[d], UINT64_MAX - 1, SEAL_MULTIPLE_TOO_LARGE);
        number_refused(MULTIPLE, degrees[d], UINT64_MAX, SEAL_MULTIPLE_TOO_LARGE);
        gives(MULTIPLE, degrees[d], 0, x_0, MOST, x_0);
    }
    end_test("118: 2^61, every power of 2 above it and more, after all that is wrong with the input; 2^61 - 1 passes");
}

/* Of some of the numbers a part of the bits alone would pass. */
static void too_many_halvings(void) {
    static const uint64_t numbers[] = {
        65, 66, 127, 128, 255, 256, 257, 65536, (uint64_t)1 << 32, ((uint64_t)1 << 32) + 1, ((uint64_t)1 << 32) + 64,
        SEAL_MULTIPLE_LIMIT, (uint64_t)1 << 63, UINT64_MAX,
    };
    for (int d = 0; d < 2; d++) {
        for (size_t i = 0; i < sizeof numbers / sizeof numbers[0]; i++)
            number_refused(HALVINGS, degrees[d], numbers[i], SEAL_TOO_MANY_HALVINGS);
        gives(HALVINGS, degrees[d], 0, x_0, SEAL_HALVINGS_LIMIT, xxx_1);
    }
    end_test("119: 65, powers of 2 and more, after all that is wrong with the input; 64 passes");
}

/* ---- laws: what the calls answer to each other's answers, on the curves x^7 and x^7 + 1 over each field */

#define SAMPLES 4
static const int which_sample[SAMPLES] = {0, 1, 3, 4};

/* The call on a class with a number has to write the field given. */
static void is(enum call call, const struct sample *s, const struct bytes *class, uint64_t number,
               const struct bytes *expected) {
    struct bytes in = record_of(s, class, NULL);
    expect_at(call, in.at, in.length, number, 51, (uint32_t)expected->length, expected->at, number % 2 == 0);
}

/* (m + n) times a class is the sum of m times and n times it; m n times it is m times n times it, where that is a
 * number below 2^61. */
static void adds_up(const struct sample *s, const struct bytes *class, uint64_t m, uint64_t n) {
    struct bytes times_m = on_one(MULTIPLE, s, class, m), times_n = on_one(MULTIPLE, s, class, n);
    struct bytes sum = sum_of(s, &times_m, &times_n);
    is(MULTIPLE, s, class, m + n, &sum);
    if (n != 0 && m > MOST / n)
        return;
    struct bytes product = on_one(MULTIPLE, s, class, m * n);
    is(MULTIPLE, s, &times_n, m, &product);
}

/* Small numbers with every class, and large ones with one of degree 1 or 3, by turns. */
static void laws_of_multiples(void) {
    static const uint64_t small[4][2] = {{0, 0}, {1, 0}, {1, 2}, {13, 29}};
    static const uint64_t large[3][2] = {
        {1000000007, 1000000009}, {MOST - 1, 1}, {(uint64_t)1 << 60, ((uint64_t)1 << 60) - 1},
    };
    for (int which = 0; which < SAMPLES; which++) {
        struct sample s = sample(which_sample[which]);
        for (int c = 0; c < CLASSES; c++)
            for (int i = 0; i < 4; i++)
                adds_up(&s, &s.class[c], small[i][0], small[i][1]);
        for (int i = 0; i < 3; i++)
            adds_up(&s, &s.class[which % 2 == 0 ? 1 : 3], large[i][0], large[i][1]);
    }
    end_test("(m + n) times a class is a sum, and m n times it is m times n times it");
}

/* k doublings are undone by k halvings and are 2^k times; k halves one after the other are k halvings. */
static void undone(const struct sample *s, const struct bytes *class, uint64_t k) {
    struct bytes doubled = *class, halved = *class;
    for (uint64_t i = 0; i < k; i++) {
        doubled = on_one(DOUBLE, s, &doubled, 0);
        halved = on_one(HALF, s, &halved, 0);
    }
    is(HALVINGS, s, &doubled, k, class);
    is(HALVINGS, s, class, k, &halved);
    if (k >= 61)
        return;
    is(MULTIPLE, s, class, (uint64_t)1 << k, &doubled);
    is(MULTIPLE, s, &halved, (uint64_t)1 << k, class);
}

static void halvings_and_doublings(void) {
    for (int which = 0; which < SAMPLES; which++) {
        struct sample s = sample(which_sample[which]);
        const struct bytes *often = &s.class[which % 2 == 0 ? 1 : 3];
        for (int c = 0; c < CLASSES; c++)
            for (uint64_t k = 0; k < 4; k++)
                undone(&s, &s.class[c], k);
        undone(&s, often, which % 2 == 0 ? 60 : SEAL_HALVINGS_LIMIT);
    }
    end_test("k halvings are k halves, and undo k doublings and 2^k times");
}

void test_licence(void) {
    worked_multiples();
    worked_halvings();
    multiples_too_large();
    too_many_halvings();
    laws_of_multiples();
    halvings_and_doublings();
}
