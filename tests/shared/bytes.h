/* Fields in stored form, put together byte by byte. */
#ifndef BYTES_H
#define BYTES_H

#include "area.h"
#include "classes.h"

/* How many bytes can be put together: a page, or what the test is compiled with. */
#ifndef CAPACITY
#define CAPACITY PAGE
#endif

struct bytes {
    size_t length;
    uint8_t at[CAPACITY];
};

void put(struct bytes *b, int byte);
void append(struct bytes *b, const struct bytes *more);

/* A field's head is three bytes. */
void put_head(struct bytes *b, int tag, size_t length);
void put_number(struct bytes *b, uint64_t n);
void put_degree(struct bytes *b, int d);
void put_curve(struct bytes *b, uint64_t f3, uint64_t f1, uint64_t f0);
void put_count(struct bytes *b, int count);
void put_class(struct bytes *b, int tag, struct seal_class class);

#endif
