/* Tests the eleven calls of include/seal.h and include/seal_licence.h. It knows nothing of how they are made: the edges
 * are written out here from documents 01 and 02 (edges.h), and further cases come from a second implementation
 * (reference/, `byte_vectors N`).
 *
 *     seal_calls                      the edges
 *     seal_calls N < FILE             the edges, then the N cases of the file
 *     seal_calls changes N < FILE     the N cases of the file alone
 *     seal_calls group                the laws of the group alone
 *     seal_calls lists < RECORDS      answers lists of calls on a register (lists.c)
 *
 * A line is printed for each test, of lists for each call. The last line of tests is 'N passed, M failed', and the
 * status is 0 where nothing failed.
 */
#include "check.h"
#include "edges.h"

#include <stdio.h>
#include <stdlib.h>
#include <string.h>

static uint32_t number_of(const uint8_t *b) {
    return (uint32_t)b[0] << 24 | (uint32_t)b[1] << 16 | (uint32_t)b[2] << 8 | b[3];
}

/* The cases on standard input, which have to be as many as said: the call in one byte; the number beside the input, 0
 * where the call takes none, in eight, high byte first; the lengths of output and input, and the answer expected, in
 * four each; the input; the bytes expected where the answer is no refusal. */
static void test_file(unsigned long number) {
    static uint8_t in[AREA];
    uint8_t head[21], expected[100];
    unsigned long read = 0;
    while (fread(head, 1, sizeof head, stdin) == sizeof head) {
        uint64_t beside = (uint64_t)number_of(head + 1) << 32 | number_of(head + 5);
        uint32_t out_len = number_of(head + 9), in_len = number_of(head + 13), answer = number_of(head + 17);
        size_t written = answer <= 100 ? answer : 0;
        if (head[0] >= CALLS || out_len > AREA || in_len > AREA || written > out_len
            || fread(in, 1, in_len, stdin) != in_len || fread(expected, 1, written, stdin) != written)
            break;
        expect_at(head[0], in, in_len, beside, out_len, answer, expected, read % 4 != 0);
        read++;
    }
    if (read != number || !feof(stdin))
        complain(MEMBERSHIP, NULL, 0, 0, 0, "cases in the file", (uint32_t)number, (uint32_t)read);
    end_test("cases made by the second implementation");
}

static void test_edges(void) {
    test_accepted();
    test_heads();
    test_bodies();
    test_ends();
    test_releases();
    test_stamps();
    test_licence();
}

int main(int words, char **word) {
    int laws = words > 1 && strcmp(word[1], "group") == 0, file_alone = words > 2 && strcmp(word[1], "changes") == 0;
    if (words > 1 && strcmp(word[1], "lists") == 0)
        return answer_lists() ? 0 : 1;
    make_areas();
    if (laws)
        test_group();
    else if (!file_alone)
        test_edges();
    if (words > 1 && !laws)
        test_file(strtoul(word[words - 1], NULL, 10));
    print_met();
    return end_tests() ? 0 : 1;
}
