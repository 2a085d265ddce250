/* The wrong classes of classes.h, and when two classes are the same. */
#include "classes.h"

#include <string.h>

struct seal_class wrong(int kind, int degree) {
    struct seal_class a = kind == 2 ? off : x_0;
    if (kind == 0)
        a.u[1] = 1;
    if (kind == 1)
        a.v[0] = (uint64_t)1 << degree;
    return a;
}

int same_class(struct seal_class a, struct seal_class b) {
    return a.degree == b.degree && memcmp(a.u, b.u, sizeof a.u) == 0 && memcmp(a.v, b.v, sizeof a.v) == 0;
}
