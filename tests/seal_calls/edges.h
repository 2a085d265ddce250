/* The edges, written out from documents 01 and 02: each function makes the tests of one file. */
#ifndef EDGES_H
#define EDGES_H

void test_accepted(void);
void test_heads(void);
void test_bodies(void);
void test_ends(void);
void test_releases(void);
void test_stamps(void);
void test_licence(void);

/* The laws of the group: what the calls have to make of each other's answers. */
void test_group(void);

/* Answers the lists of calls on standard input, a line for each call; whether there was no fault. */
int answer_lists(void);

#endif
