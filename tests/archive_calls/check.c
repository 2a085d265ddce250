/* The areas and the calls of check.h.
 *
 * Every call is made on areas of exactly the length said, each next to a page that cannot be touched, the input in
 * memory that cannot be written. After a call the whole output is compared, and a page beside it: the bytes expected,
 * then the bytes as they were before.
 */
#include "check.h"
#include "seal_archive.h"

#include <inttypes.h>
#include <stdio.h>
#include <stdlib.h>
#include <string.h>
#include <sys/mman.h>

static struct area input_area, output_area;

void make_areas(void) {
    input_area = make_area(AREA, PROT_READ);
    output_area = make_area(AREA, PROT_READ | PROT_WRITE);
}

#define LAST_REFUSAL SEAL_OPERATION_HELD

/* What is written is at most so much longer and so much shorter than what is read, in steps of 16. */
#define LONGER 32
#define SHORTER 96

/* How often each refusal was answered, and how often what was written was so much longer than the input. */
static unsigned long met[LAST_REFUSAL - 100], longer[(LONGER + SHORTER) / 16 + 1];

static void note(struct seal_written got, size_t in_len) {
    long difference = (long)got.length - (long)in_len;
    if (got.refusal >= 101 && got.refusal <= LAST_REFUSAL)
        met[got.refusal - 101]++;
    else if (difference < -SHORTER || difference > LONGER || difference % 16 != 0)
        fault("an archive of %zu bytes became %ld bytes longer", in_len, difference);
    else
        longer[(difference + SHORTER) / 16]++;
}

/* A fault of a call. */
static void complain(const uint8_t *in, size_t in_len, uint64_t k, size_t out_len, const char *what, uint64_t expected,
                     uint64_t got) {
    if (!fault("k = %" PRIu64 ", output of %zu bytes: %s: expected %" PRIu64 ", got %" PRIu64
               "; input of %zu bytes:", k, out_len, what, expected, got, in_len))
        return;
    for (size_t i = 0; i < in_len && i < 400; i++)
        fprintf(stderr, " %02x", in[i]);
    fputc('\n', stderr);
}

/* Where an area is looked at: all that is lent and a page beside it. */
static size_t looked_at(size_t length) {
    return length + PAGE < AREA ? length + PAGE : AREA;
}

/* What the output's area holds before a call, another row of bytes each time. */
static void fill(uint8_t *at, size_t length) {
    for (size_t i = 0; i < length; i += PAGE)
        memcpy(at + i, filling(calls() + i), length - i < PAGE ? length - i : PAGE);
}

void expect_at(const uint8_t *in, size_t in_len, uint64_t k, size_t out_len, uint32_t refusal, const uint8_t *written,
               size_t length, int at_end) {
    static uint8_t before[AREA];
    if (in_len > AREA || out_len > AREA || length > out_len)
        abort();
    size_t in_at = at_end ? AREA - in_len : 0, out_at = at_end ? AREA - out_len : 0;
    size_t in_looked = looked_at(in_len), looked = looked_at(out_len), from = at_end ? AREA - looked : 0;
    memset(input_area.write + (at_end ? AREA - in_looked : 0), at_end ? 0x00 : 0xff, in_looked);
    if (in_len > 0)
        memcpy(input_area.write + in_at, in, in_len);
    fill(before + from, looked);
    memcpy(output_area.write + from, before + from, looked);

    /* an empty area is NULL every second time */
    const uint8_t *in_seen = in_len == 0 && at_end ? NULL : input_area.seen + in_at;
    uint8_t *out_seen = out_len == 0 && at_end ? NULL : output_area.seen + out_at;
    struct seal_written got = seal_suppress(in_seen, in_len, k, out_seen, out_len);
    count_call();
    note(got, in_len);

    if (got.refusal != refusal) {
        complain(in, in_len, k, out_len, "refusal", refusal, got.refusal);
        return;
    }
    if (got.length != length) {
        complain(in, in_len, k, out_len, "length", length, got.length);
        return;
    }
    if (in_len > 0 && memcmp(input_area.write + in_at, in, in_len) != 0)
        complain(in, in_len, k, out_len, "bytes of the input that stayed", in_len, 0);
    if (length > 0)
        memcpy(before + out_at, written, length);
    if (memcmp(output_area.write + from, before + from, looked) == 0)
        return;
    size_t i = from;
    while (output_area.write[i] == before[i])
        i++;
    char what[60];
    snprintf(what, sizeof what, "byte %ld of the output", (long)i - (long)out_at);
    complain(in, in_len, k, out_len, what, before[i], output_area.write[i]);
}

void writes(const struct bytes *in, uint64_t k, const struct bytes *expected) {
    for (int at_end = 0; at_end < 2; at_end++)
        expect_at(in->at, in->length, k, in->length + SEAL_ARCHIVE_GROWTH, 0, expected->at, expected->length, at_end);
}

void refused(const struct bytes *in, uint64_t k, uint32_t refusal) {
    for (int at_end = 0; at_end < 2; at_end++)
        expect_at(in->at, in->length, k, in->length + SEAL_ARCHIVE_GROWTH, refusal, NULL, 0, at_end);
}

struct bytes suppressed(const struct bytes *in, uint64_t k) {
    struct bytes out = {0};
    struct seal_written got = seal_suppress(in->at, in->length, k, out.at, in->length + SEAL_ARCHIVE_GROWTH);
    count_call();
    note(got, in->length);
    if (got.refusal != 0) {
        complain(in->at, in->length, k, in->length + SEAL_ARCHIVE_GROWTH, "refusal", 0, got.refusal);
        return *in;
    }
    out.length = (size_t)got.length;
    return out;
}

/* 113 to 121 are no refusals of the call. */
void test_met(void) {
    printf("refusals met:");
    for (int number = 101; number <= LAST_REFUSAL; number++)
        if (number <= 112 || number >= 122) {
            printf(" %d %lu,", number, met[number - 101]);
            if (met[number - 101] == 0)
                fault("%d was not met", number);
        } else if (met[number - 101] != 0)
            fault("%d was met", number);
    printf("\nlonger by:");
    for (int by = -SHORTER; by <= LONGER; by += 16) {
        printf(" %d %lu,", by, longer[(by + SHORTER) / 16]);
        if (longer[(by + SHORTER) / 16] == 0)
            fault("no archive became %d bytes longer", by);
    }
    putchar('\n');
    count_call();
    end_test("each refusal of the call was met, no other, and each change of the length from 96 shorter to 32 longer");
}
