/* A faulty walk, for tests/row_walk. Linked with --wrap=seal_walk_row.
 * - oldest-first: the row is walked from its other end.
 * - one-early: the walk stops one class early.
 * - one-step: the walk makes one step and stays at its seal.
 * - no-limit: of a row that is too long the first 1,024 classes are walked.
 * - limit-first: 109 comes before 106 and 107.
 * - limit-late: 109 comes after the last seal's checks.
 * - unchecked: for an empty row the last seal is not checked.
 * - seal-kept: a refusal hands back the last seal.
 */
#include "../walk.h"
#include "faulty.h"

struct seal_row_walk __real_seal_walk_row(struct seal_curve curve, struct seal_class last,
                                          const struct seal_class *row, size_t classes);
struct seal_row_walk __wrap_seal_walk_row(struct seal_curve curve, struct seal_class last,
                                          const struct seal_class *row, size_t classes);

static struct seal_row_walk too_long(void) {
    struct seal_row_walk answer = {109, neutral};
    return answer;
}

struct seal_row_walk __wrap_seal_walk_row(struct seal_curve curve, struct seal_class last,
                                          const struct seal_class *row, size_t classes) {
    static struct seal_class other_end[ROOM];
    struct seal_row_walk answer = {0, last};
    if (has("oldest-first") && classes <= ROOM) {
        for (size_t i = 0; i < classes; i++)
            other_end[i] = row[classes - 1 - i];
        return __real_seal_walk_row(curve, last, other_end, classes);
    }
    if (has("one-early") && classes > 0 && classes <= LIMIT)
        return __real_seal_walk_row(curve, last, row, classes - 1);
    if (has("one-step") && classes > 0 && classes <= LIMIT)
        return __real_seal_walk_row(curve, last, row, 1);
    if (has("no-limit") && classes > LIMIT)
        return __real_seal_walk_row(curve, last, row, LIMIT);
    if (has("limit-first") && classes > LIMIT)
        return too_long();
    if (has("limit-late") && classes > LIMIT) {
        answer = __real_seal_walk_row(curve, last, row, 0);
        return answer.refusal != 0 ? answer : too_long();
    }
    if (has("unchecked") && classes == 0)
        return answer;
    answer = __real_seal_walk_row(curve, last, row, classes);
    if (has("seal-kept") && answer.refusal != 0)
        answer.seal = last;
    return answer;
}
