/* Walks of include/seal_register.h over a row that is lent, against the page after its area and against the page before
 * it. A row of which a byte has changed, and a refusal with another class than the neutral one, are faults. */
#ifndef WALK_H
#define WALK_H

#include "classes.h"

/* One class more than a walk takes. */
#define ROOM (LIMIT + 1)

/* Makes the area that the row is lent in; once, before any walk. */
void make_room(void);

/* The walk answers this seal, at both ends of the area. */
void answers(struct seal_curve curve, struct seal_class last, const struct seal_class *row, size_t classes,
             struct seal_class seal);

/* The walk is refused with this number, likewise. */
void refuses(struct seal_curve curve, struct seal_class last, const struct seal_class *row, size_t classes,
             uint32_t number);

/* Makes the tests of the edges and prints a line for each, then 'N passed, M failed'; answers whether nothing
 * failed. */
int test_edges(void);

#endif
