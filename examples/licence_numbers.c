/* Prints multiples of a class, and goes from the class to a multiple and back by halvings.
 *
 *     tests/build seal_licence
 *     cc -Iinclude -o licence_numbers examples/licence_numbers.c target/staticlib/libseal_licence.a
 *     ./licence_numbers             # seven numbers, of which the last is too large
 *     ./licence_numbers 7 1000      # or these
 *
 * The curve is y^2 + y = x^7 + 1 over GF(2^61), the class that of the first operation of examples/seal_model.c. What it
 * prints without numbers of its own is in examples/licence_numbers.txt.
 */
#include "example.h"
#include "seal_licence.h"

#include <stdlib.h>
#include <string.h>

/* How often the class is doubled and halved again. */
#define TIMES 40

static const uint8_t class_field[] = {
    SEAL_TAG_CLASS, 0, 16,                           /* of degree 1 */
    0x16, 0xbb, 0x3a, 0x04, 0x12, 0x5e, 0x49, 0x06,  /* u = x + u0 */
    0x15, 0x8e, 0x92, 0xd5, 0x9d, 0xfa, 0x96, 0xf6,  /* v = v0 */
};

/* The record of a call: the curve, then the class. */
static uint8_t record[sizeof curve + sizeof class_field];

static void print_multiple(uint64_t n) {
    uint8_t field[SEAL_LICENCE_OUTPUT];
    uint32_t answer = seal_multiple(record, sizeof record, n, field, sizeof field);
    printf("%-20" PRIu64 " ", n);
    if (SEAL_IS_REFUSAL(answer))
        printf("refused %u\n", (unsigned)answer);
    else
        print_stored_class(field);
}

/* Is the class found again where 2^TIMES times it is halved TIMES times? The field that a call writes is, with the
 * curve before it, the record of the next call. */
static int comes_back(void) {
    uint8_t there[sizeof curve + SEAL_LICENCE_OUTPUT], back[SEAL_LICENCE_OUTPUT];
    memcpy(there, curve, sizeof curve);
    uint32_t answer =
        seal_multiple(record, sizeof record, (uint64_t)1 << TIMES, there + sizeof curve, SEAL_LICENCE_OUTPUT);
    if (SEAL_IS_REFUSAL(answer))
        return 0;
    answer = seal_halvings(there, sizeof curve + answer, TIMES, back, sizeof back);
    return answer == sizeof class_field && memcmp(back, class_field, answer) == 0;
}

int main(int words, char **word) {
    static const uint64_t numbers[] = {0, 1, 2, 3, 5, SEAL_MULTIPLE_LIMIT - 1, SEAL_MULTIPLE_LIMIT};
    memcpy(record, curve, sizeof curve);
    memcpy(record + sizeof curve, class_field, sizeof class_field);
    if (words > 1)
        for (int i = 1; i < words; i++)
            print_multiple(strtoull(word[i], NULL, 10));
    else
        for (size_t i = 0; i < sizeof numbers / sizeof numbers[0]; i++)
            print_multiple(numbers[i]);
    if (!comes_back()) {
        puts("the halvings lead to another class");
        return 1;
    }
    printf("2^%d times the class, halved %d times, is the class\n", TIMES, TIMES);
    return 0;
}
