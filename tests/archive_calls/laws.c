/* The call beside those of seal.h: on curves over both fields, an archive is made by commits, and what suppressing
 * makes of its last seal is held to commits from the earliest seal, to doublings of the class, and to undos back to the
 * earliest seal. */
#include "edges.h"
#include "models.h"
#include "points.h"
#include "seal.h"

#include <string.h>

#define OPERATIONS 12

/* An archive: the fields of the curve, of the earliest and the last seal, and of the operations, number k in place k,
 * which have the tag 0x43 here. */
struct history {
    struct bytes curve, earliest, last, operation[OPERATIONS + 1];
    int count;
};

/* What a call of seal.h writes for fields after those of the curve; where it is refused a fault, and no byte. */
static struct bytes made(uint32_t (*call)(const uint8_t *, size_t, uint8_t *, size_t), const struct history *h,
                         const struct bytes *first, const struct bytes *second) {
    struct bytes in = h->curve, out = {0};
    append(&in, first);
    if (second != NULL)
        append(&in, second);
    uint32_t answer = call(in.at, in.length, out.at, SEAL_REGISTER_OUTPUT);
    count_call();
    if (SEAL_IS_REFUSAL(answer))
        fault("a call of seal.h is refused with %u", answer);
    else
        out.length = answer;
    return out;
}

/* A field of a class under another tag. */
static struct bytes tagged(const struct bytes *field, uint8_t tag) {
    struct bytes b = *field;
    b.at[0] = tag;
    return b;
}

/* The seal after a commit or an undo, with count 7 and released step 3: what is written begins with these two fields,
 * of ten bytes. */
static struct bytes stepped(uint32_t (*call)(const uint8_t *, size_t, uint8_t *, size_t), const struct history *h,
                            const struct bytes *seal, const struct bytes *class) {
    struct bytes fields = {10, {SEAL_TAG_COUNT, 0, 2, 0, 7, SEAL_TAG_RELEASED, 0, 2, 0, 3}};
    struct bytes operation = tagged(class, SEAL_TAG_OPERATION), after = {0};
    append(&fields, seal);
    fields = made(call, h, &fields, &operation);
    if (fields.length < 10)
        return *seal;
    after.length = fields.length - 10;
    memcpy(after.at, fields.at + 10, after.length);
    return after;
}

/* Classes of every degree, made of the curve's points, and so many operations of them; the earliest seal is neutral
 * or not. */
static void make(struct history *h, int which, int count) {
    const struct seal_curve *curve = &with_points[which].curve;
    struct bytes point[POINTS] = {0}, at = {0};
    memset(h, 0, sizeof *h);
    h->count = count;
    put_degree(&h->curve, curve->degree);
    put_curve(&h->curve, curve->f3, curve->f1, curve->f0);
    put_class(&at, SEAL_TAG_CLASS, neutral);
    h->earliest = at;
    for (int i = 0; i < POINTS; i++)
        put_class(&point[i], SEAL_TAG_CLASS, with_points[which].point[i]);
    if (count % 2 == 1)
        h->earliest = point[0];
    for (int k = 1; k <= count; k++) {
        if (k % 5 == 4)
            put_class(&h->operation[k], SEAL_TAG_CLASS, neutral);
        else
            at = h->operation[k] = made(seal_sum, h, &at, &point[k * k % POINTS]);
    }
    h->last = h->earliest;
    for (int k = 1; k <= count; k++)
        h->last = stepped(seal_commit, h, &h->last, &h->operation[k]);
}

static struct bytes archive_with(const struct history *h) {
    struct bytes b = h->curve;
    put_head(&b, SEAL_TAG_DRAWING, 0);
    put_count(&b, h->count);
    append(&b, &h->last);
    for (int k = h->count; k > 0; k--) {
        struct bytes operation = tagged(&h->operation[k], SEAL_TAG_OPERATION);
        append(&b, &operation);
    }
    return b;
}

static int same(const struct bytes *a, const struct bytes *b) {
    return a->length == b->length && memcmp(a->at, b->at, a->length) == 0;
}

/* The old seal less n - k doublings of the class of operation k. */
static struct bytes subtracted(const struct history *h, int k) {
    struct bytes by = made(seal_opposite, h, &h->operation[k], NULL);
    for (int i = k; i < h->count; i++)
        by = made(seal_double, h, &by, NULL);
    return made(seal_sum, h, &h->last, &by);
}

/* The history with operation k neutral, by commits from the earliest seal. */
static void replay(struct history *after, const struct history *h, int k) {
    *after = *h;
    after->operation[k].length = 0;
    put_class(&after->operation[k], SEAL_TAG_CLASS, neutral);
    after->last = after->earliest;
    for (int i = 1; i <= h->count; i++)
        after->last = stepped(seal_commit, after, &after->last, &after->operation[i]);
}

static void beside_commits(void) {
    static struct history h, after;
    for (int which = 0; which < CURVES; which++)
        for (int count = 1; count <= OPERATIONS; count += count < 4 ? 1 : 4) {
            make(&h, which, count);
            struct bytes in = archive_with(&h);
            for (int k = 1; k <= count; k++) {
                replay(&after, &h, k);
                struct bytes expected = archive_with(&after), moved = subtracted(&h, k);
                writes(&in, (uint64_t)k, &expected);
                if (!same(&moved, &after.last))
                    fault("the calls of seal.h do not agree with each other");
            }
        }
    end_test("the new seal is that of commits from the earliest one, and less 2^(n-k) times the class by doublings");
}

static void back_to_earliest(void) {
    static struct history h, after;
    for (int which = 0; which < CURVES; which++) {
        make(&h, which, OPERATIONS - 1);
        struct bytes in = archive_with(&h);
        for (int k = 1; k <= h.count; k += 3) {
            replay(&after, &h, k);
            struct bytes out = suppressed(&in, (uint64_t)k), seal = {0};
            size_t at = h.curve.length + 3 + 5; /* after the empty drawing number and the count */
            seal.length = 3 + (size_t)out.at[at + 2];
            memcpy(seal.at, out.at + at, seal.length);
            for (int i = h.count; i > 0; i--)
                seal = stepped(seal_undo, &h, &seal, &after.operation[i]);
            if (!same(&seal, &h.earliest))
                fault("undos from the new seal do not end in the earliest one");
        }
    }
    end_test("undos from the new seal, over the operations written, end in the earliest seal");
}

/* When all are suppressed, the last seal is the earliest one, doubled for each operation. */
static void all_of_them(void) {
    static struct history h;
    for (int which = 0; which < CURVES; which++)
        for (int down = 0; down < 2; down++) {
            make(&h, which, 7);
            struct bytes in = archive_with(&h);
            for (int i = 1; i <= h.count; i++)
                in = suppressed(&in, (uint64_t)(down ? h.count + 1 - i : i));
            h.last = h.earliest;
            for (int k = 1; k <= h.count; k++) {
                h.last = made(seal_double, &h, &h.last, NULL);
                h.operation[k].length = 0;
                put_class(&h.operation[k], SEAL_TAG_CLASS, neutral);
            }
            struct bytes expected = archive_with(&h);
            if (!same(&in, &expected))
                fault("all operations suppressed do not leave the earliest seal, doubled");
        }
    end_test("all operations suppressed, the oldest first or last: the earliest seal, doubled for each");
}

void test_laws(void) {
    beside_commits();
    back_to_earliest();
    all_of_them();
}
