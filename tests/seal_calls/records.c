/* The records of records.h. */
#include "records.h"
#include "seal.h"

void put_released(struct bytes *b, int released) {
    put_head(b, SEAL_TAG_RELEASED, 2);
    put(b, released >> 8);
    put(b, released & 0xff);
}

void put_register(struct bytes *b, int count, int released, struct seal_class seal) {
    put_count(b, count);
    put_released(b, released);
    put_class(b, SEAL_TAG_CLASS, seal);
}

struct record accepted(enum call call, int d) {
    struct record r = {0};
    put_degree(&r.field[0], d);
    put_curve(&r.field[1], 0, 0, 0);
    if (is_of_register(call)) {
        put_count(&r.field[2], 7);
        put_released(&r.field[3], 3);
        put_class(&r.field[4], SEAL_TAG_CLASS, x_0);
        put_class(&r.field[5], SEAL_TAG_OPERATION, x_0);
        r.fields = call == RELEASE ? 5 : 6;
    } else if (call == STAMP) {
        r.fields = 2;
    } else {
        put_class(&r.field[2], SEAL_TAG_CLASS, x_0);
        put_class(&r.field[3], SEAL_TAG_CLASS, x_0);
        r.fields = call == SUM ? 4 : 3;
    }
    return r;
}

int first_class(enum call call) {
    return is_of_register(call) ? 4 : 2;
}

void append_fields(struct bytes *b, const struct record *r, int from, int to) {
    for (int i = from; i < to; i++)
        append(b, &r->field[i]);
}

struct bytes expected_of_accepted(enum call call) {
    struct bytes b = {0};
    switch (call) {
    case OPPOSITE: put_class(&b, SEAL_TAG_CLASS, x_1); break;
    case SUM:
    case DOUBLE: put_class(&b, SEAL_TAG_CLASS, xx_0); break;
    case HALF: put_class(&b, SEAL_TAG_CLASS, xxx_1); break; /* example 3 */
    case COMMIT:                                            /* [x^2, 0] + [x, 0] is [x^3, 0] */
        put_register(&b, 8, 3, xxx_0);
        break;
    case UNDO: /* [x, 0] less itself is neutral, and so is its half */
        put_register(&b, 6, 3, neutral);
        break;
    case RELEASE: put_register(&b, 7, 7, x_0); break;
    case STAMP: put_class(&b, SEAL_TAG_CLASS, x_0); break; /* x^7 is 0 at x = 0, and so is its root */
    case MULTIPLE: put_class(&b, SEAL_TAG_CLASS, neutral); break;
    case HALVINGS: put_class(&b, SEAL_TAG_CLASS, x_0); break;
    default: break;
    }
    return b;
}

void refused(enum call call, const struct bytes *in, uint32_t refusal) {
    expect(call, in->at, in->length, output_bound(call), refusal, NULL);
    if (takes_number(call))
        expect_number(call, in->at, in->length, UINT64_MAX, output_bound(call), refusal, NULL);
}

struct bytes with_row(const struct record *r, int f, const uint64_t *row, int numbers) {
    struct bytes b = {0};
    append_fields(&b, r, 0, f);
    put_head(&b, r->field[f].at[0], (size_t)(8 * numbers));
    for (int i = 0; i < numbers; i++)
        put_number(&b, row[i]);
    return b;
}

struct bytes register_record(enum call call, int d, int count, int released, struct seal_class seal,
                             struct seal_class operation) {
    struct bytes b = {0};
    put_degree(&b, d);
    put_curve(&b, 0, 0, 0);
    put_register(&b, count, released, seal);
    if (call != RELEASE)
        put_class(&b, SEAL_TAG_OPERATION, operation);
    return b;
}
