/* Refusals of what is in a field: 106, 107, 109, 110, 111, 120. */
#include "edges.h"
#include "records.h"
#include "seal.h"

static void degrees_refused(void) {
    for (int call = 0; call < CALLS; call++)
        for (int d = 0; d < 256; d++) {
            struct record r = accepted(call, d);
            struct bytes first = {0}, all = {0}, nonsense = {0};
            append_fields(&first, &r, 0, 1);
            append_fields(&all, &r, 0, r.fields);
            append(&nonsense, &first);
            for (int i = 0; i < 9; i++)
                put(&nonsense, 0xff);
            refused(call, &first, d == 5 || d == 61 ? 102 : 106);
            refused(call, &nonsense, d == 5 || d == 61 ? 103 : 106);
            if (d != 5 && d != 61)
                refused(call, &all, 106);
        }
    end_test("106: every degree but 5 and 61, before the next field");
}

/* A field with another row is refused, whether or not the fields after it follow, and a byte more. */
static void row_refused(enum call call, const struct record *r, int f, const uint64_t *row, int numbers,
                        uint32_t refusal) {
    struct bytes b = with_row(r, f, row, numbers);
    refused(call, &b, refusal);
    append_fields(&b, r, f + 1, r->fields);
    refused(call, &b, refusal);
    put(&b, SEAL_TAG_CLASS);
    refused(call, &b, refusal);
}

static void curve_coefficients(void) {
    for (int call = 0; call < CALLS; call++)
        for (int d = 0; d < 2; d++)
            for (int place = 0; place < 3; place++) {
                uint64_t least = (uint64_t)1 << degrees[d];
                struct record r = accepted(call, degrees[d]);
                uint64_t row[3] = {0}, numbers[5] = {least, least + 1, least | 1u << 4, (uint64_t)1 << 63, UINT64_MAX};
                for (int i = 0; i < 5; i++) {
                    row[place] = numbers[i];
                    row_refused(call, &r, 1, row, 3, 107);
                }
                row[place] = least - 1; /* d = 5: 31 passes, 32 is 107 */
                struct bytes b = with_row(&r, 1, row, 3);
                put(&b, SEAL_TAG_CLASS);
                refused(call, &b, call == STAMP ? 112 : 102); /* what is left is too short for a head, or too much */
            }
    end_test("107: 2^d and above at each of f3, f1 and f0; 2^d - 1 passes");
}

static void counts(void) {
    for (int call = COMMIT; call <= RELEASE; call++)
        for (int count = 0; count < 65536; count += count < 1030 || count > 65500 ? 1 : 331) {
            struct record r = accepted(call, 5);
            struct bytes b = {0};
            append_fields(&b, &r, 0, 2);
            put_count(&b, count);
            refused(call, &b, count > 1024 ? 109 : 102);
            put(&b, 0xff);
            put(&b, 0xff);
            put(&b, 0xff);
            refused(call, &b, count > 1024 ? 109 : 103);
        }
    end_test("109: counts above 1,024, before the released step and the seal");
}

static void released_steps(void) {
    static const int counts[3] = {0, 7, 1024};
    for (int call = COMMIT; call <= RELEASE; call++)
        for (int i = 0; i < 3; i++)
            for (int released = 0; released < 65536; released += released < 1030 || released > 65500 ? 1 : 331) {
                struct record r = accepted(call, 61);
                struct bytes b = {0};
                append_fields(&b, &r, 0, 2);
                put_count(&b, counts[i]);
                put_released(&b, released);
                refused(call, &b, released > counts[i] ? 120 : 102);
                put(&b, 0xff);
                put(&b, 0xff);
                put(&b, 0xff);
                refused(call, &b, released > counts[i] ? 120 : 103);
            }
    end_test("120: released steps above the count, before the seal; the count itself passes");
}

static void class_coefficients(void) {
    for (int call = 0; call < CALLS; call++)
        for (int d = 0; d < 2; d++) {
            uint64_t least = (uint64_t)1 << degrees[d];
            struct record r = accepted(call, degrees[d]);
            for (int f = first_class(call); f < r.fields; f++)
                for (int degree = 1; degree <= 3; degree++)
                    for (int place = 0; place < 2 * degree; place++) {
                        uint64_t numbers[4] = {least, least + 1, (uint64_t)1 << 63, UINT64_MAX};
                        for (int i = 0; i < 4; i++)
                            for (uint64_t others = 0; others < 2; others++) {
                                /* u = x^n + 1 .. with v = 1 .. is on no curve here: 110 comes before 111 */
                                uint64_t row[6] = {others, others, others, others, others, others};
                                row[place] = numbers[i];
                                row_refused(call, &r, f, row, 2 * degree, 110);
                            }
                    }
        }
    end_test("110: 2^d and above at each coefficient of each class, before 111 and 112");
}

static void no_classes(void) {
    for (int call = 0; call < CALLS; call++)
        for (int d = 0; d < 2; d++) {
            struct record r = accepted(call, degrees[d]);
            for (int f = first_class(call); f < r.fields; f++) {
                uint64_t rows[6][7] = {
                    {2, 1, 0},                                             /* [x + 1, 0] */
                    {2, 0, 2},                                             /* [x, 2] */
                    {2, ((uint64_t)1 << degrees[d]) - 1, 0},               /* the largest element passes 110 */
                    {4, 0, 0, 0, 2}, {4, 0, 1, 0, 0}, {6, 0, 0, 0, 0, 0, 2},
                };
                for (int i = 0; i < 6; i++)
                    row_refused(call, &r, f, rows[i] + 1, (int)rows[i][0], 111);
            }
        }
    end_test("111: pairs that are no class, before the next field and before 112");
}

void test_bodies(void) {
    degrees_refused();
    curve_coefficients();
    counts();
    released_steps();
    class_coefficients();
    no_classes();
}
