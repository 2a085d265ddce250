/* The tests of a program, its calls of the library and its faults, counted. */
#ifndef COUNT_H
#define COUNT_H

/* Counts a call of the library. */
void count_call(void);

/* Notes a fault; the first three of a test are said on standard error. Answers whether this one was. */
__attribute__((format(printf, 1, 2))) int fault(const char *format, ...);

/* Ends a test, which passes where it made a call and no fault was noted, and prints its line. */
void end_test(const char *name);

/* Prints 'N passed, M failed'; answers whether nothing failed. */
int end_tests(void);

/* The calls that were made and the faults that were noted, in all tests. */
unsigned long calls(void);
unsigned long faults(void);

#endif
