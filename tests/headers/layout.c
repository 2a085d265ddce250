/* The layouts of seal_written and seal_register, and what an initialiser by position of the latter means that was
 * written before the released step came, with SEAL_VERSION 3: curve, count and seal. The status is 0 where it gives
 * these and the released step 0. */
#include "seal_archive.h"
#include "seal_register.h"

#include <string.h>

_Static_assert(offsetof(struct seal_written, refusal) == 0, "the refusal is the first member");
_Static_assert(offsetof(struct seal_written, length) == 8, "the length follows four bytes of padding");
_Static_assert(sizeof(struct seal_written) == 16, "nothing follows the length");

_Static_assert(offsetof(struct seal_register, curve) == 0, "the curve is the first member");
_Static_assert(offsetof(struct seal_register, count) == 32, "the count follows the curve");
_Static_assert(offsetof(struct seal_register, seal) == 40, "the seal follows the count");
_Static_assert(offsetof(struct seal_register, released) == 96, "the released step is the last member");
_Static_assert(sizeof(struct seal_register) == 104, "nothing follows the released step");

int main(void) {
    const struct seal_register r = {{61, 1, 2, 3}, 4, {3, {5, 6, 7}, {8, 9, 10}}};
    const struct seal_class seal = {.degree = 3, .u = {5, 6, 7}, .v = {8, 9, 10}};
    int same = r.curve.degree == 61 && r.curve.f3 == 1 && r.curve.f1 == 2 && r.curve.f0 == 3 && r.count == 4;
    same &= memcmp(&r.seal, &seal, sizeof seal) == 0; /* a class has no padding */
    return same && r.released == 0 ? 0 : 1;
}
