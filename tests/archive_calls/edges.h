/* The edges, written out from documents 01 and 02: each function makes the tests of one file. */
#ifndef EDGES_H
#define EDGES_H

void test_suppressed(void);
void test_limits(void);
void test_room(void);
void test_reading(void);
void test_pairs(void);
void test_held(void);

/* What the call has to make beside the calls of seal.h, and of its own answers. */
void test_laws(void);

#endif
