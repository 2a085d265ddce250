/* Tests the calls on a register of include/seal_register.h.
 *
 *     register_calls            the edges, releases, a changed commit: a line for each test, then 'N passed, M failed'
 *     register_calls trial      answers calls that it reads from standard input, one line for each, on one register
 *
 * The records and the lines of a trial are those of the program history_trial (crates/history_trial/src/main.rt),
 * where the register goes by value; so what it writes has to be what the second implementation writes (reference/,
 * `history_vectors`). The status is 0 where there was no fault.
 */
#include "count.h"
#include "example.h"
#include "lent.h"
#include "trial.h"

#include <string.h>

static void answer(enum call call, struct seal_register *r, struct seal_class a, int at_end) {
    uint32_t refused = lend(call, r, a, at_end);
    if (refused != 0)
        printf("refused %" PRIu32 "\n", refused);
    else if (r->seal.degree > 3)
        puts("a seal of a degree above 3");
    else {
        printf("%" PRIu64 " %" PRIu64 " ", r->count, r->released);
        print_class(r->seal.degree, r->seal.u, r->seal.v);
    }
}

/* The register, with all three numbers of u and of v, whatever the degree. */
static void show(const struct seal_register *r) {
    uint64_t f[3] = {r->curve.f0, r->curve.f1, r->curve.f3};
    printf("%u ", r->curve.degree);
    print_coefficients(3, f);
    printf(" %" PRIu64 " %" PRIu64 " %" PRIu64 ":", r->count, r->released, r->seal.degree);
    print_coefficients(3, r->seal.u);
    putchar(':');
    print_coefficients(3, r->seal.v);
    putchar('\n');
}

static void trial(void) {
    uint8_t record[RECORD];
    struct seal_register r;
    size_t read;
    memset(&r, 0, sizeof r);
    for (unsigned long i = 0; (read = fread(record, 1, RECORD, stdin)) == RECORD; i++) {
        switch (record[0]) {
        case TRIAL_START: r = register_in(record); break;
        case TRIAL_COMMIT: answer(COMMIT, &r, operation_in(record), i % 2); break;
        case TRIAL_UNDO: answer(UNDO, &r, operation_in(record), i % 2); break;
        case TRIAL_RELEASE: answer(RELEASE, &r, operation_in(record), i % 2); break;
        case TRIAL_SHOW: show(&r); break;
        default: puts("no such call");
        }
    }
    if (read > 0)
        puts("cut short");
}

int main(int words, char **word) {
    make_room();
    if (words == 1) {
        test_edges();
        test_releases();
        test_displacement();
        return end_tests() ? 0 : 1;
    }
    if (words != 2 || strcmp(word[1], "trial") != 0)
        return 2;
    trial();
    return faults() == 0 ? 0 : 1;
}
