/* How much stack each call takes: it is run on a stack of its own that was filled with one byte, and the deepest byte
 * that changed is looked up. The calls are made on classes of every degree over both fields, every two of them where a
 * call takes two, on stamps, on numbers, on archives up to the longest, and on refused records.
 *
 * Prints a line for each call with the most bytes that it took, the caller's copy of its arguments included, and ends
 * with 1 where one took more than half of SEAL_STACK. */
#define _XOPEN_SOURCE 700
#include "seal.h"
#include "seal_archive.h"
#include "seal_licence.h"
#include "seal_register.h"

#include <stdio.h>
#include <stdlib.h>
#include <string.h>
#include <ucontext.h>

#define ROOM (1 << 20)
#define FILLING 0xA5
#define CLASSES 7

static uint8_t stack[ROOM];
static ucontext_t here, there;

/* What the call under measure gets. */
static uint8_t in[SEAL_ARCHIVE_LONGEST], out[SEAL_REGISTER_OUTPUT], archive_out[sizeof in + SEAL_ARCHIVE_GROWTH];
static size_t in_len;
static uint64_t number; /* a stamp, n or k */
static uint32_t answer;
static struct seal_register lent;
static struct seal_class operation, row[CLASSES];
static size_t classes;
static struct seal_row_walk walked;

static void nothing(void) {}
static void membership(void) { answer = seal_membership(in, in_len); }
static void opposite(void) { answer = seal_opposite(in, in_len, out, sizeof out); }
static void sum(void) { answer = seal_sum(in, in_len, out, sizeof out); }
static void twice(void) { answer = seal_double(in, in_len, out, sizeof out); }
static void half(void) { answer = seal_half(in, in_len, out, sizeof out); }
static void commit(void) { answer = seal_commit(in, in_len, out, sizeof out); }
static void undo(void) { answer = seal_undo(in, in_len, out, sizeof out); }
static void release(void) { answer = seal_release(in, in_len, out, sizeof out); }
static void stamp(void) { answer = seal_stamp(in, in_len, number, out, sizeof out); }
static void multiple(void) { answer = seal_multiple(in, in_len, number, out, sizeof out); }
static void halvings(void) { answer = seal_halvings(in, in_len, number, out, sizeof out); }
static void suppress(void) { answer = seal_suppress(in, in_len, number, archive_out, sizeof archive_out).refusal; }
static void commit_in_place(void) { answer = seal_register_commit(&lent, operation); }
static void undo_in_place(void) { answer = seal_register_undo(&lent, operation); }
static void release_in_place(void) { answer = seal_register_release(&lent); }
static void walk_row(void) {
    walked = seal_walk_row(lent.curve, lent.seal, row, classes);
    answer = walked.refusal;
}

struct measure {
    const char *name;
    void (*call)(void);
    size_t most;
    unsigned accepted, refused;
};

static struct measure calls[] = {
    {"seal_membership", membership, 0, 0, 0},
    {"seal_opposite", opposite, 0, 0, 0},
    {"seal_sum", sum, 0, 0, 0},
    {"seal_double", twice, 0, 0, 0},
    {"seal_half", half, 0, 0, 0},
    {"seal_commit", commit, 0, 0, 0},
    {"seal_undo", undo, 0, 0, 0},
    {"seal_release", release, 0, 0, 0},
    {"seal_stamp", stamp, 0, 0, 0},
    {"seal_multiple", multiple, 0, 0, 0},
    {"seal_halvings", halvings, 0, 0, 0},
    {"seal_suppress", suppress, 0, 0, 0},
    {"seal_register_commit", commit_in_place, 0, 0, 0},
    {"seal_register_undo", undo_in_place, 0, 0, 0},
    {"seal_register_release", release_in_place, 0, 0, 0},
    {"seal_walk_row", walk_row, 0, 0, 0},
};

enum {
    MEMBERSHIP, OPPOSITE, SUM, TWICE, HALF, COMMIT, UNDO, RELEASE, STAMP, MULTIPLE, HALVINGS, SUPPRESS,
    COMMIT_IN_PLACE, UNDO_IN_PLACE, RELEASE_IN_PLACE, WALK_ROW, CALLS
};

/* How many bytes of the stack a function used, from its top down. */
static size_t depth(void (*call)(void)) {
    size_t untouched = 0;
    memset(stack, FILLING, sizeof stack);
    if (getcontext(&there) != 0)
        exit(2);
    there.uc_stack.ss_sp = stack;
    there.uc_stack.ss_size = sizeof stack;
    there.uc_link = &here;
    makecontext(&there, call, 0);
    if (swapcontext(&here, &there) != 0)
        exit(2);
    while (untouched < sizeof stack && stack[untouched] == FILLING)
        untouched++;
    return sizeof stack - untouched;
}

static void measure(int which) {
    struct measure *m = &calls[which];
    size_t used = depth(m->call) - depth(nothing);
    if (used > m->most)
        m->most = used;
    if (SEAL_IS_REFUSAL(answer))
        m->refused++;
    else
        m->accepted++;
}

/* ---- records */

static void put_number(uint64_t n, int bytes) {
    while (bytes-- > 0)
        in[in_len++] = (uint8_t)(n >> 8 * bytes);
}

static void put_head(uint8_t tag, unsigned length) {
    in[in_len++] = tag;
    put_number(length, 2);
}

static void put_curve(struct seal_curve c) {
    in_len = 0;
    put_head(SEAL_TAG_DEGREE, 1);
    put_number(c.degree, 1);
    put_head(SEAL_TAG_CURVE, 24);
    put_number(c.f3, 8);
    put_number(c.f1, 8);
    put_number(c.f0, 8);
}

static void put_class(uint8_t tag, struct seal_class a) {
    put_head(tag, (unsigned)(16 * a.degree));
    for (uint64_t i = a.degree; i-- > 0;)
        put_number(a.u[i], 8);
    for (uint64_t i = a.degree; i-- > 0;)
        put_number(a.v[i], 8);
}

/* The class that a call wrote. */
static struct seal_class written(void) {
    struct seal_class a = {out[2] / 16, {0}, {0}};
    if (SEAL_IS_REFUSAL(answer))
        exit(2);
    for (uint64_t i = 0; i < 2 * a.degree; i++) {
        uint64_t n = 0;
        for (int j = 0; j < 8; j++)
            n = n << 8 | out[3 + 8 * i + j];
        if (i < a.degree)
            a.u[a.degree - 1 - i] = n;
        else
            a.v[2 * a.degree - 1 - i] = n;
    }
    return a;
}

static struct seal_class sum_of(struct seal_curve c, struct seal_class a, struct seal_class b) {
    put_curve(c);
    put_class(SEAL_TAG_CLASS, a);
    put_class(SEAL_TAG_CLASS, b);
    sum();
    return written();
}

/* ---- the calls on classes of a curve, each with each */

static void on_two(struct seal_curve c, struct seal_class a, struct seal_class b) {
    put_curve(c);
    put_class(SEAL_TAG_CLASS, a);
    put_class(SEAL_TAG_CLASS, b);
    measure(SUM);
    put_curve(c);
    put_head(SEAL_TAG_COUNT, 2);
    put_number(7, 2);
    put_head(SEAL_TAG_RELEASED, 2);
    put_number(3, 2);
    put_class(SEAL_TAG_CLASS, a);
    measure(RELEASE);
    put_class(SEAL_TAG_OPERATION, b);
    measure(COMMIT);
    measure(UNDO);
    operation = b;
    for (int which = COMMIT_IN_PLACE; which <= RELEASE_IN_PLACE; which++) {
        lent = (struct seal_register){c, 7, a, 3};
        measure(which);
    }
}

/* The largest numbers, and one more. */
static void with_numbers(void) {
    for (uint64_t more = 0; more < 2; more++) {
        number = SEAL_MULTIPLE_LIMIT - 1 + more;
        measure(MULTIPLE);
        number = SEAL_HALVINGS_LIMIT + more;
        measure(HALVINGS);
    }
}

static void on_one(struct seal_curve c, struct seal_class a) {
    put_curve(c);
    put_class(SEAL_TAG_CLASS, a);
    with_numbers();
    for (int which = MEMBERSHIP; which <= HALF; which++)
        if (which != SUM)
            measure(which);
    in_len--;
    for (int which = MEMBERSHIP; which <= RELEASE; which++)
        measure(which);
    with_numbers();
}

/* Stamps, one of which has no class over GF(2^61) and is too large over the bench field; and a record that is cut. */
static void on_stamps(struct seal_curve c) {
    static const uint64_t stamps[] = {0, 1, 2, 3, 784, UINT64_MAX};
    put_curve(c);
    for (size_t i = 0; i < sizeof stamps / sizeof stamps[0]; i++) {
        number = stamps[i];
        measure(STAMP);
    }
    in_len--;
    measure(STAMP);
}

/* An archive of so many operations, the newest first, by turns of these classes, and of the first so many pairs without
 * operation 1. */
static void put_archive(struct seal_curve c, const struct seal_class *turns, unsigned count, unsigned pairs) {
    put_curve(c);
    put_head(SEAL_TAG_DRAWING, 38);
    for (int i = 0; i < 38; i++)
        put_number('A', 1);
    put_head(SEAL_TAG_COUNT, 2);
    put_number(count, 2);
    put_class(SEAL_TAG_CLASS, turns[0]);
    for (unsigned i = 0; i < count; i++)
        put_class(SEAL_TAG_OPERATION, turns[i % 2]);
    if (pairs > 0)
        put_head(SEAL_TAG_PAIRS, 4 * pairs);
    for (unsigned later = 3; pairs > 0; later++)
        for (unsigned earlier = 2; earlier < later && pairs > 0; earlier++, pairs--) {
            put_number(later, 2);
            put_number(earlier, 2);
        }
}

/* Operations of every number suppressed that is of interest: the oldest, one that is held, the middle and newest ones,
 * and none; then a wrong pair, or a wrong last byte, and an archive that is cut. */
static void on_archive(struct seal_curve c, const struct seal_class *turns, unsigned count, unsigned pairs) {
    const uint64_t numbers[] = {0, 1, 2, count / 2, count, (uint64_t)count + 1, UINT64_MAX};
    put_archive(c, turns, count, pairs);
    for (size_t i = 0; i < sizeof numbers / sizeof numbers[0]; i++) {
        number = numbers[i];
        measure(SUPPRESS);
    }
    number = count;
    in[in_len - 1] ^= 0xff;
    measure(SUPPRESS);
    in_len--;
    measure(SUPPRESS);
}

/* Classes of every degree, made of one of degree 1. */
static void on_curve(struct seal_curve c, struct seal_class point) {
    on_stamps(c);
    row[0] = (struct seal_class){0, {0}, {0}};
    row[1] = point;
    for (int i = 2; i < CLASSES - 1; i++)
        row[i] = sum_of(c, row[i - 1], point);
    row[CLASSES - 1] = (struct seal_class){9, {0}, {0}};
    for (int i = 0; i < CLASSES; i++) {
        if (i < CLASSES - 1)
            on_one(c, row[i]);
        for (int j = 0; j < CLASSES - 1; j++)
            on_two(c, row[j], row[i % (CLASSES - 1)]);
        operation = row[i];
        lent = (struct seal_register){c, 7, row[1], 3};
        measure(COMMIT_IN_PLACE);
        measure(UNDO_IN_PLACE);
        lent = (struct seal_register){c, 7, row[i], 3};
        measure(RELEASE_IN_PLACE);
        classes = (size_t)i + 1;
        lent = (struct seal_register){c, 7, row[3], 3};
        measure(WALK_ROW);
    }
    classes = 0;
    measure(WALK_ROW);
    for (int i = 0; i + 1 < CLASSES - 1; i++)
        on_archive(c, row + i, 8, (unsigned)i);
    on_archive(c, row + 3, SEAL_COUNT_LIMIT, 2048); /* both of degree 3: the longest archive */
    if (in_len + 1 != sizeof in)
        exit(2);
}

int main(void) {
    int over = 0;
    on_curve((struct seal_curve){61, 0, 0, 1}, (struct seal_class){1, {0x16bb3a04125e4906}, {0x158e92d59dfa96f6}});
    on_curve((struct seal_curve){5, 0, 0, 0}, (struct seal_class){1, {0}, {0}});
    for (int i = 0; i < CALLS; i++) {
        struct measure *m = &calls[i];
        printf("%-22s %6zu bytes, the most of %u calls\n", m->name, m->most, m->accepted + m->refused);
        if (m->accepted == 0 || m->refused == 0 || m->most == 0 || 2 * m->most > SEAL_STACK)
            over = 1;
    }
    return over;
}
