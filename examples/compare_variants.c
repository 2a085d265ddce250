/* Compares two variants of a model that differ in one operation: seals both, and works out from the change alone how
 * far the seal of the one has to move to be that of the other.
 *
 *     tests/build seal
 *     cc -Iinclude -o compare_variants examples/compare_variants.c target/staticlib/libseal.a
 *     ./compare_variants
 *
 * A commit doubles the seal and adds the operation's class. So where operation k of n, counted from the oldest, has
 * class E in place of D, the last seal moves by n - k doublings of E - D, whatever the other operations are. The curve
 * is y^2 + y = x^7 + 1 over GF(2^61), and three of the operations are those of examples/seal_model.c. What it prints is
 * in examples/compare_variants.txt.
 */
#include "example.h"
#include "seal.h"

#include <stdio.h>
#include <stdlib.h>
#include <string.h>

#define OPERATIONS 5
#define CHANGED 2 /* the place of the operation that is changed, from 1, the oldest */

/* One field of a class, or a register: count (0x42), released step (0x45) and seal (0x43), as commit writes them. */
struct stored {
    uint8_t bytes[SEAL_REGISTER_OUTPUT];
    size_t length;
};

static const struct stored nothing = {{0}, 0};

/* The field of a class of degree 1: u = x + u0 and v = v0. */
static struct stored point(uint64_t u0, uint64_t v0) {
    struct stored field = {{SEAL_TAG_CLASS, 0, 16}, 19};
    for (int i = 0; i < 8; i++) {
        field.bytes[3 + i] = (uint8_t)(u0 >> (56 - 8 * i));
        field.bytes[11 + i] = (uint8_t)(v0 >> (56 - 8 * i));
    }
    return field;
}

/* What a call writes for the curve and one or two fields; ends the program where it is refused. */
static struct stored made(uint32_t (*call)(const uint8_t *, size_t, uint8_t *, size_t), const struct stored *first,
                          const struct stored *second) {
    uint8_t record[sizeof curve + 2 * SEAL_REGISTER_OUTPUT];
    struct stored out;
    memcpy(record, curve, sizeof curve);
    memcpy(record + sizeof curve, first->bytes, first->length);
    memcpy(record + sizeof curve + first->length, second->bytes, second->length);
    uint32_t answer = call(record, sizeof curve + first->length + second->length, out.bytes, sizeof out.bytes);
    if (SEAL_IS_REFUSAL(answer)) {
        fprintf(stderr, "refused %u\n", (unsigned)answer);
        exit(1);
    }
    out.length = answer;
    return out;
}

static struct stored sum(const struct stored *first, const struct stored *second) {
    return made(seal_sum, first, second);
}

/* The last seal of a model that is empty at first, with count 0 and the neutral seal. */
static struct stored sealed(const struct stored operations[OPERATIONS]) {
    struct stored model = {EMPTY_REGISTER, EMPTY_REGISTER_LENGTH}, seal;
    for (int i = 0; i < OPERATIONS; i++) {
        struct stored operation = operations[i];
        operation.bytes[0] = SEAL_TAG_OPERATION;
        model = made(seal_commit, &model, &operation);
    }
    const uint8_t *seal_at = seal_field(model.bytes);
    seal.length = HEAD + body_length(seal_at);
    memcpy(seal.bytes, seal_at, seal.length);
    return seal;
}

/* Two classes are the same where their fields are. */
static int same(const struct stored *first, const struct stored *second) {
    return first->length == second->length && memcmp(first->bytes, second->bytes, first->length) == 0;
}

static void print(const char *what, const struct stored *field) {
    printf("%-16s ", what);
    print_stored_class(field->bytes);
}

static int say_same(const char *what, const struct stored *first, const struct stored *second) {
    int is_same = same(first, second);
    printf("%s: %s\n", what, is_same ? "the same" : "not the same");
    return is_same;
}

int main(void) {
    const struct stored hole = point(UINT64_C(0x16bb3a04125e4906), UINT64_C(0x158e92d59dfa96f6));
    const struct stored bend = point(UINT64_C(0xf660a7a438e4ca4), UINT64_C(0x694acb2cd0ff434));
    const struct stored flange = point(UINT64_C(0x11715c663bf5481c), UINT64_C(0x7e39414516309a0));
    const struct stored wider_bend = point(UINT64_C(0x136aaa97debd7e85), UINT64_C(0x1af63f1a181d7a8));
    struct stored first[OPERATIONS] = {hole, bend, flange, hole, flange}, second[OPERATIONS];
    memcpy(second, first, sizeof first);
    second[CHANGED - 1] = wider_bend;

    struct stored first_seal = sealed(first), second_seal = sealed(second);
    print("first variant", &first_seal);
    print("second variant", &second_seal);

    /* How far the change moves the seal. */
    struct stored minus_bend = made(seal_opposite, &bend, &nothing), by = sum(&wider_bend, &minus_bend);
    print("the change", &by);
    for (int i = CHANGED; i < OPERATIONS; i++) {
        by = made(seal_double, &by, &nothing);
        print("doubled", &by);
    }
    struct stored moved = sum(&first_seal, &by);
    int all = say_same("the first variant's seal plus that, and the second's seal", &moved, &second_seal);

    /* Sums may be reordered and regrouped. */
    struct stored hole_bend = sum(&hole, &bend), bend_hole = sum(&bend, &hole), bend_flange = sum(&bend, &flange);
    struct stored left = sum(&hole_bend, &flange), right = sum(&hole, &bend_flange);
    all &= say_same("hole + bend, and bend + hole", &hole_bend, &bend_hole);
    all &= say_same("(hole + bend) + flange, and hole + (bend + flange)", &left, &right);
    return all ? 0 : 1;
}
