/* What is refused after all fields are read: 112, 113, 114; and areas of more than 4 GB. */
#define _GNU_SOURCE
#include "edges.h"
#include "records.h"
#include "seal.h"

#include <stdio.h>
#include <stdlib.h>
#include <string.h>
#include <sys/mman.h>

static void bytes_remain(void) {
    for (int call = 0; call < CALLS; call++)
        for (int d = 0; d < 2; d++) {
            struct record r = accepted(call, degrees[d]);
            struct bytes b = {0};
            append_fields(&b, &r, 0, r.fields);
            for (int more = 0; more < 60; more++) {
                put(&b, more % 2 == 0 ? 0x44 : 0);
                refused(call, &b, 112);
            }
        }
    for (int call = COMMIT; call <= RELEASE; call++)
        for (int all = 0; all < 2; all++) { /* nothing is released, or all */
            int count = call == COMMIT || all ? 1024 : 0;
            struct bytes b = register_record(call, 5, count, count * all, x_0, x_0);
            put(&b, 0);
            refused(call, &b, 112);
        }
    for (int call = 0; call < CALLS; call++) {
        struct record r = accepted(call, 61);
        struct bytes b = {0};
        append_fields(&b, &r, 0, r.fields);
        while (b.length < sizeof b.at)
            put(&b, 0x43);
        refused(call, &b, 112);
    }
    end_test("112: 1 to 60 bytes and a page of them after the last field, before 113 to 115, 118, 119 and 121");
}

static void first_and_last_count(void) {
    for (int d = 0; d < 2; d++) {
        int counts[6] = {0, 1, 2, 512, 1023, 1024};
        for (int i = 0; i < 6; i++) {
            /* twice [x, 0] plus neutral is [x^2, 0]; half of [x^2, 0] less neutral is [x, 0] */
            struct bytes commit = register_record(COMMIT, degrees[d], counts[i], 0, x_0, neutral), out = {0};
            put_register(&out, counts[i] + 1, 0, xx_0);
            expect(COMMIT, commit.at, commit.length, 61, counts[i] == 1024 ? 114 : (uint32_t)out.length, out.at);
            struct bytes undo = register_record(UNDO, degrees[d], counts[i], 0, xx_0, neutral), back = {0};
            put_register(&back, counts[i] - 1, 0, x_0);
            expect(UNDO, undo.at, undo.length, 61, counts[i] == 0 ? 113 : (uint32_t)back.length, back.at);
        }
        struct bytes b = register_record(COMMIT, degrees[d], 1025, 0, x_0, neutral);
        refused(COMMIT, &b, 109);
        refused(UNDO, &b, 109);
        b = register_record(COMMIT, degrees[d], 1024, 0, x_0, off);
        refused(COMMIT, &b, 111);
        b = register_record(UNDO, degrees[d], 0, 0, off, x_0);
        refused(UNDO, &b, 111);
    }
    end_test("113 and 114: undo at 0; commit at 1,023 gives 1,024, at 1,024 is 114, at 1,025 is 109");
}

/* Memory that takes no room until it is written. */
static uint8_t *wide_area(size_t length) {
    void *area = mmap(NULL, length, PROT_READ | PROT_WRITE, MAP_PRIVATE | MAP_ANONYMOUS | MAP_NORESERVE, -1, 0);
    if (area == MAP_FAILED) {
        perror("mmap");
        exit(2);
    }
    return area;
}

/* Areas whose lengths, in 32 bits, would be those of an accepted record and of an output that is too short. */
static void long_areas(void) {
    size_t four_gigabytes = (size_t)1 << 32;
    uint8_t *in = wide_area(four_gigabytes + AREA);
    uint8_t *out = wide_area(four_gigabytes + AREA);
    for (int call = 0; call < CALLS; call++) {
        struct record r = accepted(call, 61);
        struct bytes b = {0}, expected = expected_of_accepted(call);
        append_fields(&b, &r, 0, r.fields);
        memcpy(in, b.at, b.length);
        uint32_t long_input = call_library(call, in, four_gigabytes + b.length, 0, out, 100);
        if (long_input != 112)
            complain(call, b.at, b.length, 0, 100, "4 GB more of input", 112, long_input);
        memset(out, 0, AREA);
        uint32_t long_output = call_library(call, in, b.length, 0, out, four_gigabytes + 1);
        if (long_output != expected.length || memcmp(out, expected.at, expected.length) != 0)
            complain(call, b.at, b.length, 0, 1, "4 GB more of output", (uint32_t)expected.length, long_output);
        count_call();
        count_call();
    }
    munmap(in, four_gigabytes + AREA);
    munmap(out, four_gigabytes + AREA);
    end_test("areas of more than 4 GB");
}

void test_ends(void) {
    bytes_remain();
    first_and_last_count();
    long_areas();
}
