/* One call of the libraries, and whether it does what is expected. */
#ifndef CHECK_H
#define CHECK_H

#include "area.h"
#include "count.h"

/* The longest input or output that is tried: one page. */
#define AREA PAGE

enum call { MEMBERSHIP, OPPOSITE, SUM, DOUBLE, HALF, COMMIT, UNDO, RELEASE, STAMP, MULTIPLE, HALVINGS, CALLS };

/* Does the call take a number beside the input: STAMP the stamp, MULTIPLE n and HALVINGS k? */
int takes_number(enum call call);

/* Is the call one on a register: COMMIT, UNDO or RELEASE? */
int is_of_register(enum call call);

/* The number is handed over by the calls that take one. */
uint32_t call_library(enum call call, const uint8_t *in, size_t in_len, uint64_t number, uint8_t *out, size_t out_len);

/* How long the call's output must be. */
size_t output_bound(enum call call);

/* Makes the areas; once, before any case. */
void make_areas(void);

/* One case: an input with a number beside it, the length of the output, the answer expected and, where it is no
 * refusal, the bytes expected. The areas lie against the page after them or against the page before them. */
void expect_at(enum call call, const uint8_t *in, size_t in_len, uint64_t number, size_t out_len, uint32_t expected,
               const uint8_t *written, int at_end);

/* The same at both ends, with the number 0. */
void expect(enum call call, const uint8_t *in, size_t in_len, size_t out_len, uint32_t expected,
            const uint8_t *written);

/* The same with any number. */
void expect_number(enum call call, const uint8_t *in, size_t in_len, uint64_t number, size_t out_len, uint32_t expected,
                   const uint8_t *written);

/* A fault of a call. */
void complain(enum call call, const uint8_t *in, size_t in_len, uint64_t number, size_t out_len, const char *what,
              uint32_t expected, uint32_t got);

/* Prints how often each call gave each answer. */
void print_met(void);

#endif
