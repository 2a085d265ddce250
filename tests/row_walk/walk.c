/* The area and the walk of walk.h. The library sees the area in memory that cannot be written to. */
#include "walk.h"
#include "area.h"
#include "count.h"

#include <string.h>
#include <sys/mman.h>

#define AREA (15 * PAGE)

static struct area area;

void make_room(void) {
    area = make_area(AREA, PROT_READ);
}

static struct seal_row_walk walked(struct seal_curve curve, struct seal_class last, const struct seal_class *row,
                                   size_t classes, int at_end) {
    size_t length = classes * sizeof *row, at = at_end ? AREA - length : 0;
    if (length > 0)
        memcpy(area.write + at, row, length);
    const struct seal_class *lent = (const struct seal_class *)(void *)(area.seen + at);
    struct seal_row_walk answer = seal_walk_row(curve, last, lent, classes);
    count_call();
    if (length > 0 && memcmp(area.seen + at, row, length) != 0)
        fault("over %zu classes: a byte of the row changed", classes);
    if (answer.refusal != 0 && !same_class(answer.seal, neutral))
        fault("over %zu classes: a refusal with another class than the neutral one", classes);
    return answer;
}

void answers(struct seal_curve curve, struct seal_class last, const struct seal_class *row, size_t classes,
             struct seal_class seal) {
    for (int end = 0; end < 2; end++) {
        struct seal_row_walk got = walked(curve, last, row, classes, end);
        if (got.refusal != 0)
            fault("over %zu classes: expected 0, got %u", classes, got.refusal);
        else if (!same_class(got.seal, seal))
            fault("over %zu classes: another seal than the earliest", classes);
    }
}

void refuses(struct seal_curve curve, struct seal_class last, const struct seal_class *row, size_t classes,
             uint32_t number) {
    for (int end = 0; end < 2; end++) {
        struct seal_row_walk got = walked(curve, last, row, classes, end);
        if (got.refusal != number)
            fault("over %zu classes: expected %u, got %u", classes, number, got.refusal);
    }
}
