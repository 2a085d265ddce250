/* Faulty calls on a register, for tests/register_calls. Linked with --wrap=seal_register_commit,
 * --wrap=seal_register_undo and --wrap=seal_register_release.
 * - only-count: an acceptance leaves the seal as it was.
 * - count-kept: an acceptance leaves the count as it was.
 * - refusal-writes: a refusal leaves another count.
 * - scratch: a refusal leaves one byte of padding changed.
 * - rewrites: a refusal writes one byte of padding as it was.
 * - undo-commits: an undo is a commit.
 * - adds-first: the class is added before the seal is doubled, and is subtracted after it is halved.
 * - subtracts: the class is subtracted where it should be added, and added where it should be subtracted.
 * - all-neutral: an acceptance leaves the neutral seal.
 * - commit-clears: a commit sets the released step to 0.
 * - undo-clears: an undo does.
 * - one-more: a release sets the released step to one more than the count.
 * - released-kept: a release leaves the released step as it was.
 * - release-doubles: a release doubles the seal.
 * - refused-sets: a release that is refused sets the released step all the same.
 * - zero-late: 121 comes before 113.
 * - undo-behind: an undo is accepted at the released step.
 * - early-stop: an undo is refused with 121 also one above the released step.
 * - released-unchecked: no call refuses a released step above the count.
 * - released-late: 120 comes after the checks of the seal.
 * - release-at-limit: a release is refused with 114 at count 1,024.
 * - release-at-zero: a release is refused with 113 at count 0.
 */
#include "classes.h"
#include "faulty.h"
#include "seal_register.h"

uint32_t __real_seal_register_commit(struct seal_register *lent, struct seal_class operation);
uint32_t __real_seal_register_undo(struct seal_register *lent, struct seal_class operation);
uint32_t __real_seal_register_release(struct seal_register *lent);
uint32_t __wrap_seal_register_commit(struct seal_register *lent, struct seal_class operation);
uint32_t __wrap_seal_register_undo(struct seal_register *lent, struct seal_class operation);
uint32_t __wrap_seal_register_release(struct seal_register *lent);

static uint32_t faulty(uint32_t answer, struct seal_register *lent, const struct seal_register *before) {
    if (answer == 0 && has("only-count"))
        lent->seal = before->seal;
    if (answer == 0 && has("all-neutral"))
        lent->seal = neutral;
    if (answer == 0 && has("count-kept"))
        lent->count = before->count;
    if (answer != 0 && has("refusal-writes"))
        lent->count++;
    if (answer != 0 && has("scratch"))
        ((unsigned char *)lent)[1] ^= 1;
    if (answer != 0 && has("rewrites"))
        ((volatile unsigned char *)lent)[1] |= 0;
    return answer;
}

/* The class that takes the place of the operation's in both calls: twice it, or its opposite. */
static struct seal_class other(struct seal_curve curve, struct seal_class operation) {
    struct seal_register r = {curve, 0, operation, 0};
    if (has("adds-first") && __real_seal_register_commit(&r, neutral) == 0)
        return r.seal;
    if (has("subtracts") && operation.degree > 0)
        operation.v[0] ^= 1;
    return operation;
}

/* A call with another released step in the register's place; what is refused stays as it was. */
static uint32_t with_released(uint64_t released, uint32_t (*call)(struct seal_register *, struct seal_class),
                          struct seal_register *lent, struct seal_class operation) {
    struct seal_register r = *lent;
    r.released = released;
    uint32_t answer = call(&r, operation);
    r.released = lent->released;
    if (answer == 0)
        *lent = r;
    return answer;
}

static uint32_t release_anyhow(struct seal_register *lent, struct seal_class operation) {
    (void)operation;
    return __real_seal_register_release(lent);
}

/* The call where its checks of the released step are faulty. */
static uint32_t released_fault(uint32_t (*call)(struct seal_register *, struct seal_class), struct seal_register *lent,
                           struct seal_class operation) {
    int above = lent->released > lent->count;
    if (above && has("released-unchecked"))
        return with_released(0, call, lent, operation);
    if (above && has("released-late")) {
        struct seal_register r = *lent;
        r.released = 0;
        uint32_t seal = __real_seal_register_release(&r);
        return seal != 0 ? seal : call(lent, operation);
    }
    return call(lent, operation);
}

uint32_t __wrap_seal_register_commit(struct seal_register *lent, struct seal_class operation) {
    struct seal_register before = *lent;
    uint32_t answer = released_fault(__real_seal_register_commit, lent, other(lent->curve, operation));
    if (answer == 0 && has("commit-clears"))
        lent->released = 0;
    return faulty(answer, lent, &before);
}

uint32_t __wrap_seal_register_undo(struct seal_register *lent, struct seal_class operation) {
    struct seal_register before = *lent;
    if (has("undo-commits"))
        return __real_seal_register_commit(lent, operation);
    if (has("undo-behind") && lent->count == lent->released && lent->count > 0)
        return with_released(0, __real_seal_register_undo, lent, operation);
    if (has("early-stop") && lent->count == lent->released + 1 && lent->released > 0)
        return with_released(lent->count, __real_seal_register_undo, lent, operation);
    uint32_t answer = released_fault(__real_seal_register_undo, lent, other(lent->curve, operation));
    if (answer == 113 && has("zero-late"))
        return 121;
    if (answer == 0 && has("undo-clears"))
        lent->released = 0;
    return faulty(answer, lent, &before);
}

uint32_t __wrap_seal_register_release(struct seal_register *lent) {
    struct seal_register before = *lent, copy = *lent;
    if (has("release-at-limit") && lent->count == SEAL_COUNT_LIMIT && __real_seal_register_release(&copy) == 0)
        return 114;
    if (has("release-at-zero") && lent->count == 0 && __real_seal_register_release(&copy) == 0)
        return 113;
    uint32_t answer = released_fault(release_anyhow, lent, neutral);
    if (answer != 0 && has("refused-sets"))
        lent->released = lent->count;
    if (answer == 0 && has("one-more"))
        lent->released++;
    if (answer == 0 && has("released-kept"))
        lent->released = before.released;
    if (answer == 0 && has("release-doubles") && __real_seal_register_commit(&before, neutral) == 0)
        lent->seal = before.seal;
    return answer;
}
