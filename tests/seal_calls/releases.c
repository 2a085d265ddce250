/* The released step and a release by bytes (document 02, request 8), and its refusals 120 and 121. */
#include "edges.h"
#include "records.h"
#include "seal.h"

#include <string.h>

#define COUNTS 7
static const int counts[COUNTS] = {0, 1, 2, 255, 512, 1023, 1024};

/* Released steps beside a count: none, half of it, one below it and the count itself. */
#define RELEASED_STEPS 4
static int released_below(int count, int which) {
    const int released[RELEASED_STEPS] = {0, count / 2, count == 0 ? 0 : count - 1, count};
    return released[which];
}

/* The call has to write this register, in an output that is just long enough and in a longer one; in one of 60 bytes it
 * is refused. */
static void writes(enum call call, const struct bytes *in, int count, int released, struct seal_class seal) {
    struct bytes out = {0};
    put_register(&out, count, released, seal);
    expect(call, in->at, in->length, SEAL_REGISTER_OUTPUT, (uint32_t)out.length, out.at);
    expect(call, in->at, in->length, 200, (uint32_t)out.length, out.at);
    expect(call, in->at, in->length, 60, 101, NULL);
}

static void releases(void) {
    static const size_t lengths[4] = {13, 29, 45, 61};
    const struct seal_class seals[4] = {neutral, x_1, xx_0, xxx_1};
    for (int d = 0; d < 2; d++)
        for (int i = 0; i < COUNTS; i++)
            for (int which = 0; which < RELEASED_STEPS; which++)
                for (int degree = 0; degree < 4; degree++) {
                    int count = counts[i], released = released_below(count, which);
                    struct bytes once = register_record(RELEASE, degrees[d], count, released, seals[degree], off);
                    struct bytes again = register_record(RELEASE, degrees[d], count, count, seals[degree], off);
                    writes(RELEASE, &once, count, count, seals[degree]);
                    writes(RELEASE, &again, count, count, seals[degree]);
                    if (again.length != 31 + lengths[degree])
                        fault("a register of other than 13, 29, 45 or 61 bytes");
                }
    end_test("a release writes the count as the released step, at 0 and 1,024 too, and a second one writes the same");
}

/* twice [x, 0] plus neutral is [x^2, 0], and half of [x^2, 0] less neutral is [x, 0] */
static void released_kept(void) {
    for (int d = 0; d < 2; d++)
        for (int i = 0; i < COUNTS; i++)
            for (int which = 0; which < RELEASED_STEPS; which++) {
                int count = counts[i], released = released_below(count, which);
                struct bytes commit = register_record(COMMIT, degrees[d], count, released, x_0, neutral);
                struct bytes undo = register_record(UNDO, degrees[d], count, released, xx_0, neutral);
                if (count == 1024)
                    refused(COMMIT, &commit, SEAL_COMMIT_AT_LIMIT);
                else
                    writes(COMMIT, &commit, count + 1, released, xx_0);
                if (count == 0)
                    refused(UNDO, &undo, SEAL_UNDO_AT_ZERO);
                else if (count == released)
                    refused(UNDO, &undo, SEAL_UNDO_AT_RELEASED);
                else
                    writes(UNDO, &undo, count - 1, released, x_0);
            }
    end_test("commit and undo keep the released step; an undo at it is 121, one above passes, at count 0 it is 113");
}

/* 120 before anything of seal and operation, after 109; 121 and 113 after these and after 112. */
static void order(void) {
    for (int d = 0; d < 2; d++)
        for (int i = 0; i < COUNTS; i++) {
            int count = counts[i];
            for (int call = COMMIT; call <= RELEASE; call++) {
                struct bytes above = register_record(call, degrees[d], count, count + 1, x_0, x_0);
                struct bytes no_class = register_record(call, degrees[d], count, count + 1, off, off);
                struct bytes too_high = register_record(call, degrees[d], 1025 + count, 1026 + count, off, off);
                refused(call, &above, SEAL_RELEASED_TOO_HIGH);
                refused(call, &no_class, SEAL_RELEASED_TOO_HIGH);
                refused(call, &too_high, SEAL_COUNT_TOO_HIGH);
                expect(call, above.at, above.length, 60, 101, NULL);
            }
            struct bytes seal = register_record(RELEASE, degrees[d], count, count, off, x_0);
            struct bytes undo = register_record(UNDO, degrees[d], count, count, x_0, off);
            refused(RELEASE, &seal, SEAL_NOT_A_CLASS);
            refused(UNDO, &undo, SEAL_NOT_A_CLASS);
            undo = register_record(UNDO, degrees[d], count, count, x_0, x_0);
            put(&undo, 0);
            refused(UNDO, &undo, SEAL_BYTES_REMAIN);
            /* a release takes no operation */
            struct bytes operation = register_record(COMMIT, degrees[d], count, count, x_0, x_0);
            refused(RELEASE, &operation, SEAL_BYTES_REMAIN);
        }
    end_test("120 after 109 and before the seal; 121 after 111 and 112; a release with an operation is 112");
}

/* A record without 0x45, and one with 0x45 in another place than between 0x42 and 0x43. */
static void places(void) {
    for (int call = COMMIT; call <= RELEASE; call++)
        for (int d = 0; d < 2; d++) {
            struct record r = accepted(call, degrees[d]);
            struct bytes without = {0};
            append_fields(&without, &r, 0, 3);
            append_fields(&without, &r, 4, r.fields);
            refused(call, &without, SEAL_WRONG_TAG);
            for (int place = 0; place <= r.fields; place++) {
                struct bytes b = {0};
                for (int f = 0; f <= r.fields; f++) {
                    if (f == place)
                        append(&b, &r.field[3]);
                    if (f < r.fields && f != 3)
                        append(&b, &r.field[f]);
                }
                if (place == 3 || place == 4)
                    expect(call, b.at, b.length, SEAL_REGISTER_OUTPUT, (uint32_t)expected_of_accepted(call).length,
                           expected_of_accepted(call).at);
                else
                    refused(call, &b, SEAL_WRONG_TAG);
            }
        }
    end_test("103: no 0x45, or 0x45 in another place than between 0x42 and 0x43");
}

/* A record as it was before 0x45: the fields of degree, curve and count are 36 bytes, and the seal's follows. */
static struct bytes of_version_3(enum call call, int d, int count, struct seal_class seal) {
    struct bytes b = register_record(call, d, count, 0, seal, neutral);
    memmove(b.at + 36, b.at + 41, b.length - 41);
    b.length -= 5;
    return b;
}

/* The same with the five bytes of include/seal.h between count and seal. */
static struct bytes migrated(const struct bytes *before) {
    static const uint8_t released[5] = {0x45, 0x00, 0x02, 0x00, 0x00};
    struct bytes b = {0};
    memcpy(b.at, before->at, 36);
    memcpy(b.at + 36, released, 5);
    memcpy(b.at + 41, before->at + 36, before->length - 36);
    b.length = before->length + 5;
    return b;
}

/* twice [x, 0] plus neutral is [x^2, 0] */
static void migration(void) {
    for (int d = 0; d < 2; d++)
        for (int i = 0; i < COUNTS; i++) {
            int count = counts[i];
            struct bytes release = of_version_3(RELEASE, degrees[d], count, x_0);
            struct bytes undo = of_version_3(UNDO, degrees[d], count, xx_0);
            refused(RELEASE, &release, SEAL_WRONG_TAG);
            refused(UNDO, &undo, SEAL_WRONG_TAG);
            release = migrated(&release);
            undo = migrated(&undo);
            writes(RELEASE, &release, count, count, x_0);
            if (count == 0)
                refused(UNDO, &undo, SEAL_UNDO_AT_ZERO);
            else
                writes(UNDO, &undo, count - 1, 0, x_0);
        }
    end_test("a record of version 3 is 103, and with 45 00 02 00 00 between 0x42 and 0x43 it has the released step 0");
}

/* What is in an accepted record of a release when it is cut at every byte: the head or the body of a field. */
static void truncations(void) {
    const struct seal_class seals[4] = {neutral, x_1, xx_0, xxx_1};
    static const size_t ends[5] = {4, 31, 36, 41, 0}; /* where the fields end, but for the last */
    for (int d = 0; d < 2; d++)
        for (int degree = 0; degree < 4; degree++) {
            struct bytes in = register_record(RELEASE, degrees[d], 7, 3, seals[degree], off);
            for (size_t length = 0; length < in.length; length++) {
                size_t start = 0;
                for (int f = 0; ends[f] != 0 && ends[f] <= length; f++)
                    start = ends[f];
                struct bytes cut = in;
                cut.length = length;
                refused(RELEASE, &cut, length < start + 3 ? SEAL_HEAD_CUT : SEAL_BODY_CUT);
            }
        }
    end_test("an accepted release cut at every byte is 102 in a head and 105 in a body");
}

/* ---- sessions: each call on the register that the call before wrote */

/* The record of a call on a register that was written; that of RELEASE has no operation. */
static struct bytes next_record(enum call call, int d, const struct bytes *written, struct seal_class operation) {
    struct bytes b = {0};
    put_degree(&b, d);
    put_curve(&b, 0, 0, 0);
    append(&b, written);
    if (call != RELEASE)
        put_class(&b, SEAL_TAG_OPERATION, operation);
    return b;
}

/* What the call writes; where it is refused a fault, and the register as it was. */
static struct bytes after(enum call call, int d, const struct bytes *written, struct seal_class operation) {
    struct bytes in = next_record(call, d, written, operation), out = {0};
    uint32_t answer = call_library(call, in.at, in.length, 0, out.at, SEAL_REGISTER_OUTPUT);
    count_call();
    if (SEAL_IS_REFUSAL(answer)) {
        complain(call, in.at, in.length, 0, SEAL_REGISTER_OUTPUT, "answer of a session", SEAL_REGISTER_OUTPUT, answer);
        return *written;
    }
    out.length = answer;
    return out;
}

/* Sixteen commits with a release after the first so many: each commit after it is taken back, to the byte, and the one
 * before it no more. */
static void sessions(void) {
    enum { OPERATIONS = 16 };
    static struct bytes before[OPERATIONS];
    for (int d = 0; d < 2; d++)
        for (int at = 0; at <= OPERATIONS; at += 2) {
            struct bytes kept = {0};
            put_register(&kept, 0, 0, xxx_0);
            for (int i = 0; i <= OPERATIONS; i++) {
                if (i == at)
                    kept = after(RELEASE, degrees[d], &kept, neutral);
                if (i == OPERATIONS)
                    break;
                before[i] = kept;
                kept = after(COMMIT, degrees[d], &kept, i % 3 == 0 ? neutral : x_1);
            }
            for (int i = OPERATIONS - 1; i >= at; i--) {
                struct bytes in = next_record(UNDO, degrees[d], &kept, i % 3 == 0 ? neutral : x_1);
                expect(UNDO, in.at, in.length, SEAL_REGISTER_OUTPUT, (uint32_t)before[i].length, before[i].at);
                kept = before[i];
            }
            struct bytes in = next_record(UNDO, degrees[d], &kept, x_1);
            refused(UNDO, &in, at == 0 ? SEAL_UNDO_AT_ZERO : SEAL_UNDO_AT_RELEASED);
            in = next_record(RELEASE, degrees[d], &kept, neutral);
            expect(RELEASE, in.at, in.length, SEAL_REGISTER_OUTPUT, (uint32_t)kept.length, kept.at);
        }
    end_test("sixteen commits with a release among them, taken back as far as the release and no further");
}

void test_releases(void) {
    releases();
    released_kept();
    order();
    places();
    migration();
    truncations();
    sessions();
}
