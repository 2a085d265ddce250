/* Lists of commits, undos and releases by bytes, each on the register that the last accepted call wrote. The records
 * and the lines are those of the program history_trial (crates/history_trial/src/main.rt), where the register goes by
 * value; so what is printed has to be what the second implementation writes (reference/, `history_vectors`). */
#include "area.h"
#include "edges.h"
#include "example.h"
#include "records.h"
#include "seal.h"
#include "trial.h"

#include <string.h>

/* The register: the fields of degree and curve, and those that the last accepted call wrote. */
static struct bytes on_curve, kept;

/* An operation's field. What has another shape than a class cannot be stored: it gets a length that is not allowed,
 * which is 104 too. */
static void put_operation(struct bytes *b, struct seal_class a) {
    int shaped = a.degree <= 3;
    for (uint64_t i = a.degree; i < 3; i++)
        shaped &= a.u[i] == 0 && a.v[i] == 0;
    if (shaped)
        put_class(b, SEAL_TAG_OPERATION, a);
    else
        put_head(b, SEAL_TAG_OPERATION, 17);
}

static void start(struct seal_register r) {
    on_curve = kept = (struct bytes){0};
    put_degree(&on_curve, r.curve.degree);
    put_curve(&on_curve, r.curve.f3, r.curve.f1, r.curve.f0);
    put_register(&kept, (int)r.count, (int)r.released, r.seal);
}

/* Prints the count and the released step of the register. */
static void print_counts(void) {
    printf("%" PRIu64 " %" PRIu64 " ", number_at(kept.at + HEAD, 2), number_at(next_field(kept.at) + HEAD, 2));
}

/* Makes a call and prints its line. A refusal that changed a byte of the output, and an acceptance that changed one
 * after those it wrote, are faults. */
static void answer(enum call call, struct seal_class operation) {
    static uint8_t out[PAGE];
    struct bytes in = on_curve;
    append(&in, &kept);
    if (call != RELEASE)
        put_operation(&in, operation);
    const uint8_t *before = filling(calls());
    memcpy(out, before, PAGE);
    uint32_t got = call_library(call, in.at, in.length, 0, out, SEAL_REGISTER_OUTPUT);
    count_call();
    size_t written = SEAL_IS_REFUSAL(got) ? 0 : got;
    if (written > SEAL_REGISTER_OUTPUT || memcmp(out + written, before + written, PAGE - written) != 0)
        complain(call, in.at, in.length, 0, SEAL_REGISTER_OUTPUT, "a byte that is not written", 0, got);
    if (SEAL_IS_REFUSAL(got)) {
        printf("refused %" PRIu32 "\n", got);
        return;
    }
    kept.length = written;
    memcpy(kept.at, out, written);
    print_counts();
    print_stored_class(seal_field(kept.at));
}

/* Prints a row of a class with three numbers, whatever the degree. */
static void print_row(const uint8_t *at, size_t degree) {
    for (size_t i = 0; i < 3; i++)
        printf("%" PRIx64 "%s", i < 3 - degree ? 0 : number_at(at + 8 * (i - (3 - degree)), 8), i < 2 ? "," : "");
}

/* Prints all that the register holds. */
static void show(void) {
    const uint8_t *f = next_field(on_curve.at) + HEAD, *seal = seal_field(kept.at);
    size_t degree = body_length(seal) / 16;
    printf("%u ", on_curve.at[HEAD]);
    print_row(f, 3);
    putchar(' ');
    print_counts();
    printf("%zu:", degree);
    print_row(seal + HEAD, degree);
    putchar(':');
    print_row(seal + HEAD + 8 * degree, degree);
    putchar('\n');
}

int answer_lists(void) {
    uint8_t record[RECORD];
    while (fread(record, 1, RECORD, stdin) == RECORD)
        switch (record[0]) {
        case TRIAL_START: start(register_in(record)); break;
        case TRIAL_COMMIT: answer(COMMIT, operation_in(record)); break;
        case TRIAL_UNDO: answer(UNDO, operation_in(record)); break;
        case TRIAL_RELEASE: answer(RELEASE, operation_in(record)); break;
        default: show();
        }
    return faults() == 0;
}
