/* The areas of area.h: one file, seen in two places of memory. */
#define _GNU_SOURCE
#include "area.h"

#include <stdio.h>
#include <stdlib.h>
#include <sys/mman.h>
#include <unistd.h>

static void *must(void *p) {
    if (p == MAP_FAILED) {
        perror("mmap");
        exit(2);
    }
    return p;
}

struct area make_area(size_t length, int protection) {
    int file = memfd_create("area", 0);
    if (file < 0 || ftruncate(file, (off_t)length) != 0) {
        perror("memfd_create");
        exit(2);
    }
    struct area area;
    uint8_t *around = must(mmap(NULL, length + 2 * PAGE, PROT_NONE, MAP_PRIVATE | MAP_ANONYMOUS, -1, 0));
    area.seen = must(mmap(around + PAGE, length, protection, MAP_SHARED | MAP_FIXED, file, 0));
    area.write = must(mmap(NULL, length, PROT_READ | PROT_WRITE, MAP_SHARED, file, 0));
    close(file);
    return area;
}

const uint8_t *filling(unsigned long time) {
    static uint8_t row[PAGE + 251];
    if (row[0] == 0)
        for (size_t i = 0; i < sizeof row; i++)
            row[i] = (uint8_t)((i * 167 + 13) ^ (i >> 3));
    return row + time % 251;
}
