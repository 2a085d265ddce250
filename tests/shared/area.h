/* Memory to lend to a call, in which an access outside is caught. */
#ifndef AREA_H
#define AREA_H

#include <stddef.h>
#include <stdint.h>

#define PAGE 4096

/* Memory between two pages that cannot be touched. */
struct area {
    uint8_t *seen;  /* as the library gets it */
    uint8_t *write; /* as the test writes it */
};

/* An area of some pages, which the library sees with this protection; ends the program where there is none. */
struct area make_area(size_t length, int protection);

/* What a page holds before a call: a fixed row of bytes, from another place each time. */
const uint8_t *filling(unsigned long time);

#endif
