/* Records in stored form, put together field by field, right ones and wrong ones. */
#ifndef RECORDS_H
#define RECORDS_H

#include "bytes.h"
#include "check.h"

void put_released(struct bytes *b, int released);

/* The fields of a register: count, released step and seal. */
void put_register(struct bytes *b, int count, int released, struct seal_class seal);

/* The fields of an accepted record on f = x^7, one by one: classes [x, 0], count 7, released step 3; for STAMP no
 * class. */
struct record {
    int fields;
    struct bytes field[6];
};

struct record accepted(enum call call, int d);

/* The place of the first class among the fields; for STAMP after the last. */
int first_class(enum call call);

/* Appends the fields from one to before another. */
void append_fields(struct bytes *b, const struct record *r, int from, int to);

/* What the call on an accepted record writes, with the number 0 where it takes one: examples 1 and 3 of document 01,
 * and the definitions. */
struct bytes expected_of_accepted(enum call call);

/* An accepted record up to a field, and that field with another row of numbers as its body. */
struct bytes with_row(const struct record *r, int f, const uint64_t *row, int numbers);

/* The record of a call on a register on f = x^7; that of RELEASE has no operation. */
struct bytes register_record(enum call call, int d, int count, int released, struct seal_class seal,
                             struct seal_class operation);

/* Holds a call to a refusal by its input, with an output that is just long enough; one that takes a number also with a
 * number that is too large, which is looked at later. */
void refused(enum call call, const struct bytes *in, uint32_t refusal);

#endif
