/* For calls of a library made wrong in one way, so that a test is tested itself: it has to fail on each. */
#ifndef FAULTY_H
#define FAULTY_H

/* Is this the fault that the variable SEAL_FAULT asks for? */
int has(const char *fault);

#endif
