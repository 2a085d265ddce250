/* The bytes of bytes.h. */
#include "bytes.h"

#include <stdlib.h>

void put(struct bytes *b, int byte) {
    if (b->length >= sizeof b->at)
        abort();
    b->at[b->length++] = (uint8_t)byte;
}

void put_head(struct bytes *b, int tag, size_t length) {
    put(b, tag);
    put(b, (int)(length >> 8));
    put(b, (int)(length & 0xff));
}

void put_number(struct bytes *b, uint64_t n) {
    for (int shift = 56; shift >= 0; shift -= 8)
        put(b, (int)(n >> shift & 0xff));
}

void put_degree(struct bytes *b, int d) {
    put_head(b, SEAL_TAG_DEGREE, 1);
    put(b, d);
}

void put_curve(struct bytes *b, uint64_t f3, uint64_t f1, uint64_t f0) {
    put_head(b, SEAL_TAG_CURVE, 24);
    put_number(b, f3);
    put_number(b, f1);
    put_number(b, f0);
}

void put_count(struct bytes *b, int count) {
    put_head(b, SEAL_TAG_COUNT, 2);
    put(b, count >> 8);
    put(b, count & 0xff);
}

/* u below its leading term from the highest power down, then v likewise */
void put_class(struct bytes *b, int tag, struct seal_class class) {
    put_head(b, tag, (size_t)(16 * class.degree));
    for (size_t i = class.degree; i-- > 0;)
        put_number(b, class.u[i]);
    for (size_t i = class.degree; i-- > 0;)
        put_number(b, class.v[i]);
}

void append(struct bytes *b, const struct bytes *more) {
    for (size_t i = 0; i < more->length; i++)
        put(b, more->at[i]);
}
