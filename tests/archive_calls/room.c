/* 101: an output of fewer than 48 bytes more than the input has, before any byte of the input is looked at. */
#define _GNU_SOURCE
#include "edges.h"
#include "models.h"
#include "seal_archive.h"

#include <stdio.h>
#include <stdlib.h>
#include <string.h>
#include <sys/mman.h>

/* In an output of this length the input is answered so. */
static void answers(const struct bytes *in, uint64_t k, size_t out_len, uint32_t refusal, const struct bytes *out) {
    for (int at_end = 0; at_end < 2; at_end++)
        expect_at(in->at, in->length, k, out_len, refusal, out->at, refusal == 0 ? out->length : 0, at_end);
}

/* An accepted archive, of which the operation suppressed is neutral, held, or none of n: 101 comes before that. */
static void around(const struct model *m, uint64_t k) {
    struct bytes in = archive_of(m), out = in;
    uint32_t refusal = k < 1 || k > (uint64_t)m->count ? 123 : is_held(m, (int)k) ? 124 : 0;
    if (refusal == 0) {
        struct model after = without(m, (int)k);
        out = archive_of(&after);
    }
    static const size_t short_by[] = {1, 2, 15, 16, 17, 31, 32, 33, 47, 48};
    for (size_t i = 0; i < sizeof short_by / sizeof short_by[0]; i++)
        answers(&in, k, in.length + 48 - short_by[i], 101, &in);
    answers(&in, k, 0, 101, &in);
    answers(&in, k, 47, 101, &in);
    answers(&in, k, in.length - 1, 101, &in);
    answers(&in, k, in.length + 48, refusal, &out);
    answers(&in, k, in.length + 49, refusal, &out);
    answers(&in, k, in.length + 5000, refusal, &out);
}

static void bound(void) {
    for (int d = 0; d < 2; d++)
        for (int count = 0; count <= 4; count++) {
            struct model m = model(degrees[d], count);
            if (count >= 3)
                add_pair(&m, 3, 2);
            if (count == 4)
                m.operation[1] = 0;
            for (int k = 0; k <= count + 1; k++)
                around(&m, (uint64_t)k);
        }
    end_test("101: 47 bytes more than the input has are refused and 48 pass, also where nothing grows");
}

/* Inputs that no field can be read of, of which no byte is looked at. */
static void no_archive(void) {
    for (size_t length = 0; length < 300; length += length < 10 ? 1 : 29) {
        struct bytes in = {.length = length};
        memset(in.at, 0x48, sizeof in.at);
        for (size_t out_len = 0; out_len < length + 48; out_len += out_len < 60 ? 1 : 37)
            answers(&in, 1, out_len, 101, &in);
        answers(&in, 1, length + 47, 101, &in);
        answers(&in, 1, length + 48, length < 3 ? 102 : 103, &in);
    }
    end_test("101: before any byte is looked at; an empty input needs 48 bytes, and is 102 there");
}

/* Memory that takes no room until it is written. */
static uint8_t *wide_area(size_t length) {
    void *area = mmap(NULL, length, PROT_READ | PROT_WRITE, MAP_PRIVATE | MAP_ANONYMOUS | MAP_NORESERVE, -1, 0);
    if (area == MAP_FAILED) {
        perror("mmap");
        exit(2);
    }
    return area;
}

static void is(const char *what, struct seal_written got, uint32_t refusal, uint64_t length) {
    count_call();
    if (got.refusal != refusal || got.length != length)
        fault("%s: expected %u and %lu, got %u and %lu", what, refusal, (unsigned long)length, got.refusal,
              (unsigned long)got.length);
}

/* Areas whose lengths, in 32 bits, would be those of an accepted archive and of an output that is too short. */
static void long_areas(void) {
    size_t four_gigabytes = (size_t)1 << 32;
    uint8_t *in = wide_area(four_gigabytes + AREA), *out = wide_area(four_gigabytes + AREA);
    struct model m = model(61, 4), after = without(&m, 2);
    struct bytes b = archive_of(&m), expected = archive_of(&after);
    memcpy(in, b.at, b.length);
    is("4 GB more of input", seal_suppress(in, four_gigabytes + b.length, 2, out, b.length + 48), 101, 0);
    is("4 GB more of both", seal_suppress(in, four_gigabytes + b.length, 2, out, four_gigabytes + b.length + 48), 112,
       0);
    is("4 GB more of both, less one", seal_suppress(in, four_gigabytes + b.length, 2, out,
                                                    four_gigabytes + b.length + 47), 101, 0);
    is("4 GB more of output", seal_suppress(in, b.length, 2, out, four_gigabytes + 1), 0, expected.length);
    if (memcmp(out, expected.at, expected.length) != 0)
        fault("4 GB more of output: other bytes");
    munmap(in, four_gigabytes + AREA);
    munmap(out, four_gigabytes + AREA);
    end_test("areas of more than 4 GB");
}

void test_room(void) {
    bound();
    no_archive();
    long_areas();
}
