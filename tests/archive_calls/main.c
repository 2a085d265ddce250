/* Tests seal_suppress of include/seal_archive.h. It knows nothing of how the call is made: the edges are written out
 * here from documents 01 and 02 (edges.h), and further cases come from a second implementation (reference/,
 * `archive_vectors`).
 *
 *     archive_calls                       the edges
 *     archive_calls NAME                  those of one file, or the laws beside the calls of seal.h
 *     archive_calls cases KIND N < FILE   the N cases of the file, all of one kind
 *
 * A line is printed for each test. The last line is 'N passed, M failed', and the status is 0 where nothing failed.
 */
#include "check.h"
#include "edges.h"

#include <stdio.h>
#include <stdlib.h>
#include <string.h>

static const struct {
    const char *name;
    void (*test)(void);
    int is_edge;
} files[] = {
    {"suppressed", test_suppressed, 1}, {"limits", test_limits, 1}, {"room", test_room, 1},
    {"reading", test_reading, 1},       {"pairs", test_pairs, 1},   {"held", test_held, 1},
    {"laws", test_laws, 0},
};

static uint32_t number_of(const uint8_t *b) {
    return (uint32_t)b[0] << 24 | (uint32_t)b[1] << 16 | (uint32_t)b[2] << 8 | b[3];
}

/* The cases on standard input, which have to be as many as said: k in eight bytes, high byte first; the lengths of
 * output and input, the refusal and the length expected, in four each; the input; the bytes expected. The areas
 * lie at the one end or at the other, by turns. */
static void test_cases(const char *kind, unsigned long number) {
    static uint8_t in[AREA], expected[AREA];
    uint8_t head[24];
    unsigned long read = 0;
    while (fread(head, 1, sizeof head, stdin) == sizeof head) {
        uint64_t k = (uint64_t)number_of(head) << 32 | number_of(head + 4);
        uint32_t out_len = number_of(head + 8), in_len = number_of(head + 12), length = number_of(head + 20);
        if (out_len > AREA || in_len > AREA || length > out_len || fread(in, 1, in_len, stdin) != in_len
            || fread(expected, 1, length, stdin) != length)
            break;
        expect_at(in, in_len, k, out_len, number_of(head + 16), expected, length, read % 2 == 0);
        read++;
    }
    if (read != number || !feof(stdin))
        fault("%lu cases in the file, and not %lu", read, number);
    char name[100];
    snprintf(name, sizeof name, "cases made by the second implementation: %s", kind);
    end_test(name);
}

int main(int words, char **word) {
    make_areas();
    if (words == 4 && strcmp(word[1], "cases") == 0)
        test_cases(word[2], strtoul(word[3], NULL, 10));
    for (size_t i = 0; i < sizeof files / sizeof files[0]; i++)
        if (words == 1 ? files[i].is_edge : words == 2 && strcmp(word[1], files[i].name) == 0)
            files[i].test();
    if (words == 1)
        test_met();
    return end_tests() && calls() > 0 ? 0 : 1;
}
