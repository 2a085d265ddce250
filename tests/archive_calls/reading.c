/* What an archive is refused with when it is read, field by field: 102 to 112. k is looked at later, whatever it is. */
#include "edges.h"
#include "models.h"

#include <string.h>

/* The fields of the archive below: degree, curve, drawing number, count, seal, three operations, pairs. */
enum { DEGREE, CURVE, DRAWING, COUNT, SEAL, OPERATION, PAIRS = OPERATION + 3, FIELDS };

static struct model three(int degree) {
    struct model m = model(degree, 3);
    m.seal = 3;
    add_pair(&m, 2, 1);
    add_pair(&m, 3, 2);
    return m;
}

static struct bytes archive(int degree) {
    struct model m = three(degree);
    return archive_of(&m);
}

/* Where a field begins, and for FIELDS where the archive ends. */
static size_t start_of(const struct bytes *b, int field) {
    size_t at = 0;
    while (field-- > 0)
        at += 3 + (size_t)(b->at[at + 1] << 8 | b->at[at + 2]);
    return at;
}

/* Refused with k = 0, with an operation that is held, with one that is not and with the largest k. */
static void unread(const struct bytes *in, uint32_t refusal) {
    static const uint64_t ks[4] = {0, 2, 3, UINT64_MAX};
    for (int i = 0; i < 4; i++)
        refused(in, ks[i], refusal);
}

static void cut(void) {
    for (int d = 0; d < 2; d++) {
        struct bytes whole = archive(degrees[d]);
        for (size_t length = 0; length < whole.length; length++) {
            int field = 0;
            while (start_of(&whole, field + 1) <= length)
                field++;
            struct bytes b = whole;
            b.length = length;
            size_t start = start_of(&whole, field);
            if (field < PAIRS || length > start)
                unread(&b, length < start + 3 ? 102 : 105);
        }
        struct model m = three(degrees[d]);
        m.pairs = 0; /* cut before 0x48 it is an archive without pairs, in which nothing is held */
        for (uint64_t k = 0; k <= 4; k++)
            expect_without(&m, k);
    }
    end_test("102 and 105: an archive cut at every byte, in a head and in a body; before 0x48 it is an archive");
}

static void tags(void) {
    for (int field = DEGREE; field < FIELDS; field++)
        for (int tag = 0; tag < 256; tag++) {
            struct bytes b = archive(tag % 2 == 0 ? 5 : 61);
            size_t start = start_of(&b, field);
            if (b.at[start] == tag)
                continue;
            b.at[start] = (uint8_t)tag;
            unread(&b, field == PAIRS ? 112 : 103);
            b.length = start + 1; /* the tag alone, and with one byte after it */
            unread(&b, field == PAIRS ? 112 : 102);
            b.length = start + 2;
            unread(&b, field == PAIRS ? 112 : 102);
        }
    end_test("103: every other tag in the place of a field; after the operations every other byte is 112, also alone");
}

static int is_allowed(int field, long length) {
    switch (field) {
    case DEGREE: return length == 1;
    case CURVE: return length == 24;
    case DRAWING: return length <= 38;
    case COUNT: return length == 2;
    case PAIRS: return length % 4 == 0 && length > 0 && length <= 8192;
    default: return length % 16 == 0 && length <= 48;
    }
}

/* The length after this one that is tried: each up to 70 and around 8,192, and some others. */
static long next_length(long length) {
    if (length < 70 || (length >= 8180 && length < 8200) || length >= 65530)
        return length + 1;
    return length + 811 < 8180 ? length + 811 : length < 8180 ? 8180 : length + 811 < 65530 ? length + 811 : 65530;
}

/* Each in the head of each field, with nothing after the head, one byte of the body, and with what there is. */
static void lengths(void) {
    for (int field = DEGREE; field < FIELDS; field++)
        for (long length = 0; length < 65536; length = next_length(length)) {
            struct bytes b = archive(61);
            size_t start = start_of(&b, field), end = start_of(&b, field + 1);
            int allowed = is_allowed(field, length);
            b.at[start + 1] = (uint8_t)(length >> 8);
            b.at[start + 2] = (uint8_t)length;
            if (!allowed)
                unread(&b, 104);
            if (!allowed || (size_t)length > b.length - start - 3)
                unread(&b, allowed ? 105 : 104);
            b.length = start + 4 < end ? start + 4 : end;
            if (!allowed || length > 1)
                unread(&b, allowed ? 105 : 104);
            b.length = start + 3;
            if (!allowed || length > 0)
                unread(&b, allowed ? 105 : 104);
        }
    end_test("104 before 105: lengths that a tag does not allow, up to 65,535, with a whole body, a part of it, none");
}

/* A value that a field refuses, though all that follows it is wrong too. */
static void values(void) {
    for (int d = 0; d < 2; d++) {
        const struct bytes whole = archive(degrees[d]);
        struct bytes b;
        for (int degree = 0; degree < 256; degree++) {
            b = whole;
            b.at[3] = (uint8_t)degree;
            memset(b.at + 4, 0xff, 27);
            if (degree != 5 && degree != 61)
                unread(&b, 106);
        }
        for (int coefficient = 0; coefficient < 3; coefficient++)
            for (int bit = degrees[d]; bit < 64; bit++) {
                b = whole;
                memset(b.at + start_of(&b, DRAWING), 0xff, 5);
                b.at[7 + 8 * coefficient + 7 - bit / 8] |= (uint8_t)(1 << bit % 8);
                unread(&b, 107);
            }
        for (int place = 0; place < 2; place++)
            for (int byte = 0; byte < 256; byte++) {
                b = whole;
                b.at[start_of(&b, DRAWING) + 3 + place] = (uint8_t)byte;
                if (byte >= 0x20 && byte <= 0x7e)
                    continue;
                memset(b.at + start_of(&whole, COUNT), 0xff, 5);
                unread(&b, 108);
            }
        for (int count = 1025; count < 65536; count += count < 1030 ? 1 : 4096) {
            b = whole;
            b.at[start_of(&b, COUNT) + 3] = (uint8_t)(count >> 8);
            b.at[start_of(&b, COUNT) + 4] = (uint8_t)count;
            b.at[start_of(&whole, SEAL)] = 0;
            unread(&b, 109);
        }
    }
    end_test("106 to 109: degree, curve, drawing number and count, before what follows is looked at");
}

/* A coefficient of 2^d or more in the seal or in an operation, then a pair that is no class of the curve. */
static void classes(void) {
    for (int d = 0; d < 2; d++)
        for (int field = SEAL; field < PAIRS; field++) {
            const struct bytes whole = archive(degrees[d]);
            size_t start = start_of(&whole, field), end = start_of(&whole, field + 1);
            for (size_t at = start + 3; at < end; at += 8)
                for (int bit = degrees[d]; bit < 64; bit += 5) {
                    struct bytes b = whole;
                    b.at[at + 7 - (size_t)bit / 8] |= (uint8_t)(1 << bit % 8);
                    b.at[end] ^= 0xff;
                    unread(&b, 110);
                    b.at[start + 10] ^= 1; /* it is no class of the curve either */
                    unread(&b, 110);
                }
            for (int i = 0; i < 2; i++) { /* another u, another v: of a multiple of [x, 0] all are 0, but for v = 1 */
                struct bytes b = whole;
                b.at[i == 0 ? start + 10 : end - 1] ^= 2;
                b.at[end] ^= 0xff;
                unread(&b, 111);
            }
        }
    end_test("110, then 111: of the seal and of each operation, before the next field and before 0x48");
}

/* A count that the operations do not fit, bytes after the operations, and bytes after 0x48. */
static void ends(void) {
    for (int d = 0; d < 2; d++)
        for (int with_pairs = 0; with_pairs < 2; with_pairs++) {
            struct model m = three(degrees[d]);
            if (!with_pairs)
                m.pairs = 0;
            const struct bytes whole = archive_of(&m);
            size_t count = start_of(&whole, COUNT) + 4;
            struct bytes b = whole;
            b.at[count] = 4;
            unread(&b, with_pairs ? 103 : 102);
            b.at[count] = 2;
            unread(&b, 112);
            b.at[count] = 0;
            unread(&b, 112);
            b = whole;
            for (int more = 0; more < 60; more++) {
                put(&b, more % 2 == 0 ? 0x44 : 0);
                unread(&b, 112);
            }
            b = whole;
            if (with_pairs) { /* a second 0x48, a part of one, and a byte */
                put_pairs(&b, &m);
                for (; b.length > whole.length; b.length--)
                    unread(&b, 112);
                for (int byte = 0; byte < 256; byte++) {
                    b = whole;
                    put(&b, byte);
                    unread(&b, 112);
                }
            }
            b = whole;
            while (b.length + 48 < AREA)
                put(&b, 0x43);
            unread(&b, 112);
        }
    end_test("112: bytes after the operations and after 0x48, a second 0x48 too; a count that does not fit");
}

void test_reading(void) {
    cut();
    tags();
    lengths();
    values();
    classes();
    ends();
}
