/* Calls that are accepted, and the one refusal, 101, that depends on the output alone. */
#include "edges.h"
#include "records.h"
#include "seal.h"

static void examples(void) {
    struct {
        enum call call;
        int f0;
        struct seal_class first, second, expected;
    } cases[] = {
        {DOUBLE, 0, x_0, neutral, xx_0}, /* 1 */
        {DOUBLE, 0, xx_0, neutral, xxx_1},
        {DOUBLE, 0, xxx_1, neutral, x_0},
        {HALF, 0, neutral, neutral, neutral},
        {HALF, 1, b2, neutral, b1_0},
        {HALF, 1, b3_0, neutral, b2},
        {HALF, 1, b4, neutral, b3_0},
        {SUM, 0, x_0, x_1, neutral},
        {SUM, 0, xxx_0, xxx_0, x_1},
        {SUM, 1, b2, b1_1, b1_0},
        {SUM, 1, b3_0, b4_minus, b3_1}, /* 11 */
        {DOUBLE, 0, neutral, neutral, neutral},
        {SUM, 0, neutral, x_1, x_1},
        {SUM, 0, x_1, neutral, x_1},
        {OPPOSITE, 0, neutral, neutral, neutral},
        {OPPOSITE, 0, x_0, neutral, x_1},
        {OPPOSITE, 0, x_1, neutral, x_0},
        {OPPOSITE, 0, xx_1, neutral, xx_0},
        {OPPOSITE, 1, b4, neutral, b4_minus},
    };
    for (size_t i = 0; i < sizeof cases / sizeof cases[0]; i++)
        for (int d = 0; d < 2; d++) {
            struct bytes in = {0}, out = {0};
            put_degree(&in, degrees[d]);
            put_curve(&in, 0, 0, (uint64_t)cases[i].f0);
            put_class(&in, SEAL_TAG_CLASS, cases[i].first);
            expect(MEMBERSHIP, in.at, in.length, 0, 0, NULL);
            if (cases[i].call == SUM)
                put_class(&in, SEAL_TAG_CLASS, cases[i].second);
            put_class(&out, SEAL_TAG_CLASS, cases[i].expected);
            expect(cases[i].call, in.at, in.length, 51, (uint32_t)out.length, out.at);
            expect(cases[i].call, in.at, in.length, 200, (uint32_t)out.length, out.at);
        }
    /* example 12: [x, 0] is on x^7 and not on x^7 + 1 */
    for (int d = 0; d < 2; d++)
        for (int f0 = 0; f0 < 2; f0++) {
            struct bytes in = {0};
            put_degree(&in, degrees[d]);
            put_curve(&in, 0, 0, (uint64_t)f0);
            put_class(&in, SEAL_TAG_CLASS, x_0);
            expect(MEMBERSHIP, in.at, in.length, 0, f0 == 0 ? 0 : 111, NULL);
        }
    end_test("the twelve examples of document 01, and opposites");
}

static void accepted_records(void) {
    for (int call = 0; call < CALLS; call++)
        for (int d = 0; d < 2; d++) {
            struct record r = accepted(call, degrees[d]);
            struct bytes in = {0}, out = expected_of_accepted(call);
            append_fields(&in, &r, 0, r.fields);
            for (size_t more = 0; more < 40; more++)
                expect(call, in.at, in.length, call == MEMBERSHIP ? 0 : output_bound(call) + more,
                       (uint32_t)out.length, out.at);
        }
    end_test("an accepted record, with outputs of every length from the least");
}

static void output_bounds(void) {
    for (int call = OPPOSITE; call < CALLS; call++) {
        struct record r = accepted(call, 5);
        struct bytes in = {0};
        append_fields(&in, &r, 0, r.fields);
        for (size_t length = 0; length < output_bound(call); length++) {
            expect(call, in.at, in.length, length, 101, NULL);
            expect(call, NULL, 0, length, 101, NULL);
            expect(call, in.at, 7, length, 101, NULL);
        }
        expect(call, NULL, 0, output_bound(call), 102, NULL);
    }
    expect(MEMBERSHIP, NULL, 0, 0, 102, NULL);
    end_test("101: outputs of 0 to 50 or 60 bytes, before any byte of the input");
}

void test_accepted(void) {
    examples();
    accepted_records();
    output_bounds();
}
