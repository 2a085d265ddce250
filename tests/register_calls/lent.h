/* A register lent to one call of include/seal_register.h, and what is held of every call, whatever it answers. */
#ifndef LENT_H
#define LENT_H

#include "seal_register.h"

enum call { COMMIT, UNDO, RELEASE, CALLS };

/* Makes the areas that the register is lent in; once, before any call. */
void make_room(void);

/* Lends a register to the call, with the operation's class, which a release does not take: 8 bytes from the start of
 * the area, or at its end where that is asked for. The register is overwritten by what the call left. A refusal that
 * changed a byte of the area, an acceptance that changed one beside the register, one that changed degree or curve, and
 * one that changed the released step, or by a release anything but that, are faults. A refused call is made once more,
 * on a register that cannot be written: one that writes, whatever it writes, ends the program. */
uint32_t lend(enum call call, struct seal_register *given, struct seal_class operation, int at_end);

/* A register on f = x^7, of which nothing is released. */
struct seal_register of(int degree, uint64_t count, struct seal_class seal);

/* The call refuses with this number, at both ends of the area. */
void refuses(enum call call, struct seal_register r, struct seal_class a, uint32_t number);

/* The call is accepted and leaves this register, likewise. */
void leaves(enum call call, struct seal_register r, struct seal_class a, struct seal_register left);

/* The tests of the edges, of releases, and of lists of commits of which one is changed: a line is printed for each. */
void test_edges(void);
void test_releases(void);
void test_displacement(void);

#endif
