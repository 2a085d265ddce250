/* The areas and the calls of lent.h. An area is one page; it is filled before each call, the padding of the register
 * too, so that a byte that changes is seen. The second cannot be written through what the library gets. */
#include "lent.h"
#include "area.h"
#include "classes.h"
#include "count.h"

#include <string.h>
#include <sys/mman.h>

#define PADDING (offsetof(struct seal_curve, f3) - 1)

static struct area area, locked;

void make_room(void) {
    area = make_area(PAGE, PROT_READ | PROT_WRITE);
    locked = make_area(PAGE, PROT_READ);
}

/* The register's own bytes, as it is lent; the padding after the degree keeps what the area is filled with. */
static void put(uint8_t *at, const struct seal_register *given) {
    at[0] = given->curve.degree;
    memcpy(at + 1 + PADDING, &given->curve.f3, sizeof *given - 1 - PADDING);
}

static uint32_t made(enum call call, uint8_t *at, struct seal_class operation) {
    struct seal_register *lent = (struct seal_register *)(void *)at;
    count_call();
    switch (call) {
    case COMMIT: return seal_register_commit(lent, operation);
    case UNDO: return seal_register_undo(lent, operation);
    default: return seal_register_release(lent);
    }
}

/* What an accepted call has to leave of the register: degree and curve; of commit and undo the released step, and of a
 * release count and seal. */
static void keeps(enum call call, const uint8_t *before, const uint8_t *after) {
    size_t curve = offsetof(struct seal_register, count), released = offsetof(struct seal_register, released);
    if (after[0] != before[0] || memcmp(after + 1 + PADDING, before + 1 + PADDING, curve - 1 - PADDING) != 0)
        fault("degree or curve changed");
    if (call == RELEASE && memcmp(after + curve, before + curve, released - curve) != 0)
        fault("a release changed count or seal");
    if (call != RELEASE && memcmp(after + released, before + released, sizeof(uint64_t)) != 0)
        fault("another call than a release changed the released step");
}

uint32_t lend(enum call call, struct seal_register *given, struct seal_class operation, int at_end) {
    static uint8_t before[PAGE];
    size_t at = at_end ? PAGE - sizeof *given : 8;
    memcpy(area.write, filling(calls()), PAGE);
    put(area.write + at, given);
    memcpy(before, area.write, PAGE);

    uint32_t answer = made(call, area.seen + at, operation);
    const uint8_t *after = area.write;
    for (size_t i = 0; i < PAGE; i++)
        if (after[i] != before[i] && (answer != 0 || i < at || i >= at + sizeof *given))
            fault("byte %zu of the area, answer %u: was %u, is %u", i, answer, before[i], after[i]);
    if (answer != 0) {
        /* once more where a write, be it of the byte that was there, ends the program */
        memcpy(locked.write, before, PAGE);
        if (made(call, locked.seen + at, operation) != answer)
            fault("answer %u, and another the next time", answer);
        return answer;
    }
    keeps(call, before + at, after + at);
    memcpy(given, after + at, sizeof *given);
    return answer;
}

struct seal_register of(int degree, uint64_t count, struct seal_class seal) {
    struct seal_register r = {{(uint8_t)degree, 0, 0, 0}, count, seal, 0};
    return r;
}

static const char *const names[CALLS] = {"commit", "undo", "release"};

void refuses(enum call call, struct seal_register r, struct seal_class a, uint32_t number) {
    for (int end = 0; end < 2; end++) {
        struct seal_register lent = r;
        uint32_t got = lend(call, &lent, a, end);
        if (got != number)
            fault("%s: expected %u, got %u", names[call], number, got);
    }
}

void leaves(enum call call, struct seal_register r, struct seal_class a, struct seal_register left) {
    for (int end = 0; end < 2; end++) {
        struct seal_register lent = r;
        uint32_t got = lend(call, &lent, a, end);
        if (got != 0)
            fault("%s: expected 0, got %u", names[call], got);
        else if (lent.count != left.count || lent.released != left.released || !same_class(lent.seal, left.seal))
            fault("%s: another count, released step or seal than expected", names[call]);
    }
}
