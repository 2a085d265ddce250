/* A register kept for a session and changed in place, and a walk over a lent row of classes: the four calls of the
 * proved library seal_register.
 *
 * To build and link (x86-64 Linux, nothing else is linked):
 *
 *     tests/build seal_register
 *     cc -Iinclude model.c target/staticlib/libseal_register.a
 *
 * A commit, an undo or a release answers 0 where it is accepted, and the register is then the one that follows. Else
 * it answers the refusal's number (seal_refusals.h), and every member of the register is as it was; so is its
 * padding, which is how the code is made and is tested, and not a part of the proved contract. The numbers that these
 * calls answer stand at each call. Of the others 101 to 103, 105 and 112 are of byte areas, 108 and 122 to 124 of
 * archives (seal_archive.h), 115 and 116 of stamps, 118 and 119 of multiples and halvings. 104 is SEAL_WRONG_SHAPE
 * here: a class's degree is above 3, or a number at or past its degree is not 0. They are checked in this order: 106
 * and 107 of the curve, 109 of the count, 120 of the released step, then 104, 110 and 111 of the seal and of the
 * class, then 114, or 113 and 121. A release has no class and none of the last three.
 *
 * Areas. Register, curve and classes may hold any numbers: nothing has to be checked before a call. The one duty of
 * the caller is to lend a register that is his, at an address aligned to 8 bytes and not NULL, that nobody else uses
 * during the call, and a row that is his, aligned so and as long as said. An empty row may be NULL with length 0. The
 * row is only read, and the register overlaps nothing that another call uses at the time.
 *
 * Threads and stack. The library has no state and no static data that changes, so that calls may be made at the same
 * time from any threads, each on a register of its own; a row may be read by many. It takes no memory but stack,
 * of which SEAL_STACK bytes are enough as measured.
 *
 * What the calls do is written out in docs/SPECIFICATION.md: classes in section 2, the register in 4, the refusals in
 * 6, these calls in 8. examples/register_session.c and release_session.c use them.
 */
#ifndef SEAL_REGISTER_H
#define SEAL_REGISTER_H

#include "seal_refusals.h"

#include <stddef.h>
#include <stdint.h>

#ifdef __cplusplus
extern "C" {
#endif

/* The curve y^2 + y = x^7 + f3 x^3 + f1 x + f0 over GF(2^degree), where the degree is 5 or 61. */
struct seal_curve {
    uint8_t degree;
    uint64_t f3, f1, f0;
};

/* The class [u, v]: u is monic of this degree, 0 to 3. The coefficient of x^i is in place i, the leading 1 of u is
 * left out, and the places from the degree on are 0. */
struct seal_class {
    uint64_t degree;
    uint64_t u[3], v[3];
};

/* The count of operations is at most SEAL_COUNT_LIMIT. The released step is the count at the last release, at most
 * the count; a register starts with released 0. It came with SEAL_VERSION 4 and is the last member, so that an
 * initialiser by position written before keeps its meaning: it leaves released 0 (gcc -Wextra tells of that; a 0 at
 * the end quiets it). The struct is 8 bytes longer, so that whatever was compiled with the header before has to be
 * compiled again. */
struct seal_register {
    struct seal_curve curve;
    uint64_t count;
    struct seal_class seal;
    uint64_t released;
};

/* An operation: the seal becomes twice the seal plus the class, and the count grows by 1. The released step stays.
 * Refusals: 104, 106, 107, 109 to 111, 114 at count 1,024, 120. */
uint32_t seal_register_commit(struct seal_register *lent, struct seal_class operation);

/* An operation undone: the seal becomes the half of the seal less the class, and the count falls by 1. The released
 * step stays.
 * Refusals: 104, 106, 107, 109 to 111, 113 at count 0, 120, 121 at the released step. */
uint32_t seal_register_undo(struct seal_register *lent, struct seal_class operation);

/* A release: the released step becomes the count, and all else stays. Any count may be released, 0 and 1,024 too, and
 * a second release leaves the register equal.
 * Refusals: 104, 106, 107, 109 to 111, 120. */
uint32_t seal_register_release(struct seal_register *lent);

/* A walk's answer: 0 and the seal, or the refusal's number and the neutral class. */
struct seal_row_walk {
    uint32_t refusal;
    struct seal_class seal;
};

/* A walk: from the last seal on, the class is subtracted and the difference halved, once for each class of the row,
 * which is newest first and only read. The answer is the earliest seal; for an empty row, which may be NULL, the last
 * seal itself. Checked in this order: 106 and 107 of the curve, 109 for more than 1,024 classes, then 104, 110 and 111
 * of the last seal, then of the classes, newest first.
 * Refusals: 104, 106, 107, 109 to 111. */
struct seal_row_walk seal_walk_row(struct seal_curve curve, struct seal_class last, const struct seal_class *row,
                                   size_t classes);

#ifdef __cplusplus
}
#endif

#endif
