/* One call of seal_suppress, and whether it does what is expected. */
#ifndef CHECK_H
#define CHECK_H

#include "bytes.h"
#include "count.h"

/* The longest input or output that is tried: the longest archive has 60,547 bytes. */
#define AREA (16 * PAGE)

/* Makes the areas; once, before any case. */
void make_areas(void);

/* One case: an input and k, the length of the output, the refusal expected and, where it is 0, the bytes expected. The
 * areas lie against the page after them or against the page before them. */
void expect_at(const uint8_t *in, size_t in_len, uint64_t k, size_t out_len, uint32_t refusal, const uint8_t *written,
               size_t length, int at_end);

/* The same at both ends, with the shortest output that is long enough. */
void writes(const struct bytes *in, uint64_t k, const struct bytes *expected);
void refused(const struct bytes *in, uint64_t k, uint32_t refusal);

/* What a call writes that has to be accepted; where it is refused a fault, and the input as it is. */
struct bytes suppressed(const struct bytes *in, uint64_t k);

/* Prints how often each refusal was met, and each difference of the lengths of what was written and read; it is a fault
 * where a refusal of the call or a difference was met in no case. */
void test_met(void);

#endif
