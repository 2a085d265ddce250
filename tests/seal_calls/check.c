/* The areas and the calls of check.h.
 *
 * Every call is made on areas of exactly the length said, each next to a page that cannot be touched, the input in
 * memory that cannot be written. After a call the whole output area is compared: the bytes expected, then the bytes as
 * they were before.
 */
#include "check.h"
#include "seal.h"
#include "seal_licence.h"

#include <inttypes.h>
#include <stdio.h>
#include <stdlib.h>
#include <string.h>
#include <sys/mman.h>

static struct area input_area, output_area;

void make_areas(void) {
    input_area = make_area(AREA, PROT_READ);
    output_area = make_area(AREA, PROT_READ | PROT_WRITE);
}

static const char *const call_names[CALLS] = {"membership", "opposite", "sum",   "double",   "half",    "commit",
                                              "undo",       "release",  "stamp", "multiple", "halvings"};

int takes_number(enum call call) {
    return call == STAMP || call == MULTIPLE || call == HALVINGS;
}

int is_of_register(enum call call) {
    return call == COMMIT || call == UNDO || call == RELEASE;
}

uint32_t call_library(enum call call, const uint8_t *in, size_t in_len, uint64_t number, uint8_t *out, size_t out_len) {
    switch (call) {
    case MEMBERSHIP: return seal_membership(in, in_len);
    case OPPOSITE: return seal_opposite(in, in_len, out, out_len);
    case SUM: return seal_sum(in, in_len, out, out_len);
    case DOUBLE: return seal_double(in, in_len, out, out_len);
    case HALF: return seal_half(in, in_len, out, out_len);
    case COMMIT: return seal_commit(in, in_len, out, out_len);
    case UNDO: return seal_undo(in, in_len, out, out_len);
    case RELEASE: return seal_release(in, in_len, out, out_len);
    case STAMP: return seal_stamp(in, in_len, number, out, out_len);
    case MULTIPLE: return seal_multiple(in, in_len, number, out, out_len);
    case HALVINGS: return seal_halvings(in, in_len, number, out, out_len);
    default: abort();
    }
}

size_t output_bound(enum call call) {
    return call == MEMBERSHIP ? 0 : is_of_register(call) ? 61 : 51;
}

#define LAST_REFUSAL SEAL_UNDO_AT_RELEASED

/* how often each call gave 101 to the last refusal; place 0: an accepted call */
static unsigned long met[CALLS][LAST_REFUSAL - 99];

void complain(enum call call, const uint8_t *in, size_t in_len, uint64_t number, size_t out_len, const char *what,
              uint32_t expected, uint32_t got) {
    if (!fault("%s, number %" PRIu64 ", output of %zu bytes: %s: expected %u, got %u; input of %zu bytes:",
               call_names[call], number, out_len, what, expected, got, in_len))
        return;
    for (size_t i = 0; i < in_len && i < 200; i++)
        fprintf(stderr, " %02x", in[i]);
    fputc('\n', stderr);
}

void expect_at(enum call call, const uint8_t *in, size_t in_len, uint64_t number, size_t out_len, uint32_t expected,
               const uint8_t *written, int at_end) {
    static uint8_t before[AREA];
    size_t in_at = at_end ? AREA - in_len : 0, out_at = at_end ? AREA - out_len : 0;
    memset(input_area.write, at_end ? 0x00 : 0xff, AREA);
    if (in_len > 0)
        memcpy(input_area.write + in_at, in, in_len);
    memcpy(before, filling(calls()), AREA);
    memcpy(output_area.write, before, AREA);

    /* an empty area is NULL every second time */
    const uint8_t *in_seen = in_len == 0 && at_end ? NULL : input_area.seen + in_at;
    uint8_t *out_seen = out_len == 0 && at_end ? NULL : output_area.seen + out_at;
    uint32_t got = call_library(call, in_seen, in_len, number, out_seen, out_len);
    count_call();

    if (got >= 101 && got <= LAST_REFUSAL)
        met[call][got - 100]++;
    else
        met[call][0]++;
    if (got != expected) {
        complain(call, in, in_len, number, out_len, "answer", expected, got);
        return;
    }
    if (expected <= 100 && expected > 0)
        memcpy(before + out_at, written, expected);
    if (memcmp(output_area.write, before, AREA) == 0)
        return;
    size_t i = 0;
    while (output_area.write[i] == before[i])
        i++;
    char what[60];
    snprintf(what, sizeof what, "byte %ld of the output", (long)i - (long)out_at);
    complain(call, in, in_len, number, out_len, what, before[i], output_area.write[i]);
}

void expect(enum call call, const uint8_t *in, size_t in_len, size_t out_len, uint32_t expected,
            const uint8_t *written) {
    expect_number(call, in, in_len, 0, out_len, expected, written);
}

void expect_number(enum call call, const uint8_t *in, size_t in_len, uint64_t number, size_t out_len, uint32_t expected,
                   const uint8_t *written) {
    expect_at(call, in, in_len, number, out_len, expected, written, 1);
    expect_at(call, in, in_len, number, out_len, expected, written, 0);
}

void print_met(void) {
    printf("answers met:");
    for (int number = 101; number <= LAST_REFUSAL; number++)
        printf("%7d", number);
    printf("  accepted\n");
    for (int call = 0; call < CALLS; call++) {
        printf("%-12s", call_names[call]);
        for (int number = 101; number <= LAST_REFUSAL; number++)
            printf("%7lu", met[call][number - 100]);
        printf("%10lu\n", met[call][0]);
    }
}
