/* Refusals of a field's head and of its length: 102 to 105. */
#include "edges.h"
#include "records.h"
#include "seal.h"

/* Is the length allowed for the tag? */
static int allowed(int tag, size_t length) {
    switch (tag) {
    case SEAL_TAG_DEGREE: return length == 1;
    case SEAL_TAG_CURVE: return length == 24;
    case SEAL_TAG_COUNT:
    case SEAL_TAG_RELEASED: return length == 2;
    default: return length == 0 || length == 16 || length == 32 || length == 48;
    }
}

static void cut_heads(void) {
    for (int call = 0; call < CALLS; call++) {
        struct record r = accepted(call, 61);
        for (int f = 0; f < r.fields; f++)
            for (size_t length = 0; length < 3; length++) {
                struct bytes cut = {0}, other = {0};
                append_fields(&cut, &r, 0, f);
                append(&other, &cut);
                for (size_t i = 0; i < length; i++) {
                    put(&cut, r.field[f].at[i]);
                    put(&other, 0xff);
                }
                refused(call, &cut, 102);
                refused(call, &other, 102);
            }
    }
    end_test("102: every head cut to 0, 1 and 2 bytes");
}

static void wrong_tags(void) {
    for (int call = 0; call < CALLS; call++) {
        struct record r = accepted(call, 5);
        for (int f = 0; f < r.fields; f++)
            for (int tag = 0; tag < 256; tag++) {
                if (tag == r.field[f].at[0])
                    continue;
                struct bytes whole = {0}, head = {0};
                append_fields(&head, &r, 0, f);
                append(&whole, &head);
                put_head(&head, tag, 0xffff);
                refused(call, &head, 103);
                append_fields(&whole, &r, f, r.fields);
                size_t at = 0;
                for (int i = 0; i < f; i++)
                    at += r.field[i].length;
                whole.at[at] = (uint8_t)tag;
                refused(call, &whole, 103);
            }
    }
    end_test("103: every other tag in the place of each, before length and body");
}

static void wrong_lengths(void) {
    for (int call = 0; call < CALLS; call++) {
        struct record r = accepted(call, 5);
        for (int f = 0; f < r.fields; f++)
            for (size_t length = 0; length < 65536; length += length < 300 || length > 65520 ? 1 : 997) {
                if (allowed(r.field[f].at[0], length))
                    continue;
                struct bytes b = {0};
                append_fields(&b, &r, 0, f);
                put_head(&b, r.field[f].at[0], length);
                refused(call, &b, 104);
                for (int i = 0; i < 300; i++)
                    put(&b, 0xff);
                refused(call, &b, 104);
            }
    }
    end_test("104: lengths that are not allowed, whether the body is there or not");
}

static void cut_bodies(void) {
    for (int call = 0; call < CALLS; call++) {
        struct record r = accepted(call, 5);
        for (int f = 0; f < r.fields; f++)
            for (size_t length = 1; length <= 48; length++) {
                if (!allowed(r.field[f].at[0], length))
                    continue;
                struct bytes b = {0};
                append_fields(&b, &r, 0, f);
                put_head(&b, r.field[f].at[0], length);
                for (size_t i = 0; i < length; i++) {
                    refused(call, &b, 105);
                    put(&b, 0xff);
                }
            }
    }
    end_test("105: every body cut at every byte, before what is in it");
}

void test_heads(void) {
    cut_heads();
    wrong_tags();
    wrong_lengths();
    cut_bodies();
}
