/* Keeps one register for a session: commits in place, meets a refusal, undoes, and walks back over the row of the
 * classes that it kept.
 *
 *     tests/build seal_register
 *     cc -Iinclude -o register_session examples/register_session.c target/staticlib/libseal_register.a
 *     ./register_session
 *
 * The curve is y^2 + y = x^7 + 1 over GF(2^61); the operations are those of examples/seal_model.c. What it prints is
 * in examples/register_session.txt.
 */
#include "example.h"
#include "seal_register.h"

#define OPERATIONS 3

/* Classes of degree 1: u = x + u0 and v = v0. */
static const struct seal_class operations[OPERATIONS] = {
    {1, {UINT64_C(0x16bb3a04125e4906), 0, 0}, {UINT64_C(0x158e92d59dfa96f6), 0, 0}},
    {1, {UINT64_C(0xf660a7a438e4ca4), 0, 0}, {UINT64_C(0x694acb2cd0ff434), 0, 0}},
    {1, {UINT64_C(0x11715c663bf5481c), 0, 0}, {UINT64_C(0x7e39414516309a0), 0, 0}},
};

static void print_register(const char *what, uint32_t answer, const struct seal_register *model) {
    printf("%-10s %3" PRIu32 " %2" PRIu64 " ", what, answer, model->count);
    print_class(model->seal.degree, model->seal.u, model->seal.v);
}

int main(void) {
    struct seal_register model = {{61, 0, 0, 1}, 0, {0, {0, 0, 0}, {0, 0, 0}}, 0};
    struct seal_class not_a_class = operations[0], row[OPERATIONS];
    struct seal_row_walk walk;
    uint32_t answer = 0;

    print_register("first", answer, &model);
    for (int i = 0; i < OPERATIONS; i++) {
        answer = seal_register_commit(&model, operations[i]);
        if (answer != 0)
            return 1;
        row[OPERATIONS - 1 - i] = operations[i]; /* newest first */
        print_register("commit", answer, &model);
    }

    /* What is no class is refused, and the register stays as it was. */
    not_a_class.v[0] ^= 2;
    answer = seal_register_commit(&model, not_a_class);
    print_register("refused", answer, &model);

    /* A walk from the last seal over the k newest classes leaves the register alone. */
    for (size_t k = 0; k <= OPERATIONS; k++) {
        walk = seal_walk_row(model.curve, model.seal, row, k);
        if (walk.refusal != 0)
            return 1;
        printf("walk %zu        ", k);
        print_class(walk.seal.degree, walk.seal.u, walk.seal.v);
    }

    for (int i = 0; i < OPERATIONS; i++) {
        answer = seal_register_undo(&model, row[i]);
        if (answer != 0)
            return 1;
        print_register("undo", answer, &model);
    }
    answer = seal_register_undo(&model, row[0]);
    print_register("refused", answer, &model);
    return answer == SEAL_UNDO_AT_ZERO ? 0 : 1;
}
