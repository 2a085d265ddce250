/* A modeller's session with a release: two operations are committed and released, a third is committed and undone, and
 * the undo behind the release is refused, of which the user is told. Then the model is stored with its released step
 * and goes on by bytes.
 *
 *     tests/build seal seal_register
 *     cc -Iinclude -o release_session examples/release_session.c target/staticlib/libseal.a \
 *         target/staticlib/libseal_register.a
 *     ./release_session
 *
 * The curve is y^2 + y = x^7 + 1 over GF(2^61); the operations are those of examples/seal_model.c. What it prints is in
 * examples/release_session.txt.
 */
#include "example.h"
#include "seal.h"
#include "seal_register.h"

#include <string.h>

struct operation {
    const char *name;
    struct seal_class class; /* of degree 1: u = x + u0 and v = v0 */
};

static const struct operation hole = {
    "hole", {1, {UINT64_C(0x16bb3a04125e4906), 0, 0}, {UINT64_C(0x158e92d59dfa96f6), 0, 0}}};
static const struct operation bend = {
    "bend", {1, {UINT64_C(0xf660a7a438e4ca4), 0, 0}, {UINT64_C(0x694acb2cd0ff434), 0, 0}}};
static const struct operation flange = {
    "flange", {1, {UINT64_C(0x11715c663bf5481c), 0, 0}, {UINT64_C(0x7e39414516309a0), 0, 0}}};

/* What the user is told where a call is refused. */
static const char *told(uint32_t refusal) {
    switch (refusal) {
    case SEAL_UNDO_AT_RELEASED: return "The model is released up to here. To change it, add an operation.";
    case SEAL_UNDO_AT_ZERO: return "There is nothing to undo.";
    case SEAL_COMMIT_AT_LIMIT: return "The model has as many operations as it can have.";
    default: return "The model's seal does not fit. Ask the support.";
    }
}

/* Prints the count, the released step and the seal after a call, and what the user is told where it was refused. */
static void say(const char *what, const char *name, uint32_t answer, const struct seal_register *model) {
    printf("%-7s %-7s %3" PRIu32 "  %" PRIu64 " of which %" PRIu64 " released  ", what, name, answer, model->count,
           model->released);
    print_class(model->seal.degree, model->seal.u, model->seal.v);
    if (answer != 0)
        printf("        \"%s\"\n", told(answer));
}

static uint32_t commit(struct seal_register *model, const struct operation *operation) {
    uint32_t answer = seal_register_commit(model, operation->class);
    say("commit", operation->name, answer, model);
    return answer;
}

static uint32_t undo(struct seal_register *model, const struct operation *operation) {
    uint32_t answer = seal_register_undo(model, operation->class);
    say("undo", operation->name, answer, model);
    return answer;
}

static uint32_t release(struct seal_register *model) {
    uint32_t answer = seal_register_release(model);
    say("release", "", answer, model);
    return answer;
}

/* ---- the model stored */

static size_t put_number(uint8_t *at, uint64_t number, size_t length) {
    for (size_t i = 0; i < length; i++)
        at[i] = (uint8_t)(number >> 8 * (length - 1 - i));
    return length;
}

static size_t put_head(uint8_t *at, uint8_t tag, uint64_t length) {
    at[0] = tag;
    return 1 + put_number(at + 1, length, 2);
}

static size_t put_class(uint8_t *at, uint8_t tag, const struct seal_class *class) {
    size_t length = put_head(at, tag, 16 * class->degree);
    for (uint64_t i = class->degree; i-- > 0;)
        length += put_number(at + length, class->u[i], 8);
    for (uint64_t i = class->degree; i-- > 0;)
        length += put_number(at + length, class->v[i], 8);
    return length;
}

/* The record of the model: the curve, then count (0x42), released step (0x45) and seal (0x43). */
static size_t stored(uint8_t *record, const struct seal_register *model) {
    size_t length = sizeof curve;
    memcpy(record, curve, sizeof curve);
    length += put_head(record + length, SEAL_TAG_COUNT, 2);
    length += put_number(record + length, model->count, 2);
    length += put_head(record + length, SEAL_TAG_RELEASED, 2);
    length += put_number(record + length, model->released, 2);
    return length + put_class(record + length, SEAL_TAG_CLASS, &model->seal);
}

int main(void) {
    struct seal_register model = {{61, 0, 0, 1}, 0, {0, {0, 0, 0}, {0, 0, 0}}, 0};
    uint8_t record[sizeof curve + SEAL_REGISTER_OUTPUT + SEAL_CLASS_OUTPUT], out[SEAL_REGISTER_OUTPUT];
    int as_said = 1;

    as_said &= commit(&model, &hole) == 0 && commit(&model, &bend) == 0;
    as_said &= release(&model) == 0; /* the drawing is printed */
    as_said &= commit(&model, &flange) == 0 && undo(&model, &flange) == 0;
    as_said &= undo(&model, &bend) == SEAL_UNDO_AT_RELEASED; /* refused: the register is as it was */
    as_said &= release(&model) == 0;                         /* a second release changes nothing */

    /* The released step is stored with the model, so that it holds in the next session too. */
    size_t length = stored(record, &model);
    uint32_t answer = seal_release(record, length, out, sizeof out);
    int same = answer == length - sizeof curve && memcmp(out, record + sizeof curve, answer) == 0;
    printf("stored again by a release: %" PRIu32 " bytes, %s\n", answer, same ? "the same" : "others");
    as_said &= same;
    length += put_class(record + length, SEAL_TAG_OPERATION, &bend.class);
    answer = seal_undo(record, length, out, sizeof out);
    printf("undo %s of the stored model: %" PRIu32 "\n        \"%s\"\n", bend.name, answer, told(answer));
    as_said &= answer == SEAL_UNDO_AT_RELEASED;
    return as_said ? 0 : 1;
}
