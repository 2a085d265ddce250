/* Seals a model whose operations are known by stamps: makes the class of each, commits them, undoes them, and prints
 * the register after each call.
 *
 *     tests/build seal
 *     cc -Iinclude -o stamped_model examples/stamped_model.c target/staticlib/libseal.a
 *     ./stamped_model               # three operations
 *     ./stamped_model 20 30 40      # or up to sixteen with these stamps
 *
 * The curve is y^2 + y = x^7 + 1 over GF(2^61), whose stamps are the numbers below 2^58. A few of them have no class:
 * the operation then takes the next number as its stamp, for which a tool leaves room between its stamps. What it
 * prints without stamps is in examples/stamped_model.txt.
 */
#include "example.h"
#include "seal.h"

#include <stdlib.h>
#include <string.h>

#define MOST 16

/* The register as it is stored: count (0x42), released step (0x45) and seal (0x43), as commit and undo write them. */
struct stored_register {
    uint8_t bytes[SEAL_REGISTER_OUTPUT];
    size_t length;
};

/* A stamp, and the field of its class. */
struct operation {
    uint64_t stamp;
    uint8_t field[SEAL_CLASS_OUTPUT];
    size_t length;
};

/* The number of bytes that a call wrote; ends the program where it was refused. */
static size_t written(uint32_t answer) {
    if (SEAL_IS_REFUSAL(answer)) {
        fprintf(stderr, "refused %u\n", (unsigned)answer);
        exit(1);
    }
    return answer;
}

static uint32_t try_stamp(struct operation *operation) {
    return seal_stamp(curve, sizeof curve, operation->stamp, operation->field, sizeof operation->field);
}

/* Makes the class of the operation's stamp, or of the next stamp that has one, and stores it as an operation's. */
static void make_class(struct operation *operation) {
    uint32_t answer = try_stamp(operation);
    while (answer == SEAL_STAMP_WITHOUT_CLASS) {
        printf("stamp %" PRIu64 " has no class, the next is taken\n", operation->stamp);
        operation->stamp++;
        answer = try_stamp(operation);
    }
    operation->length = written(answer);
    operation->field[0] = SEAL_TAG_OPERATION;
}

/* Commits or undoes: the record is the curve, the register and the operation. */
static void change(struct stored_register *model, const struct operation *operation,
                   uint32_t (*call)(const uint8_t *, size_t, uint8_t *, size_t)) {
    uint8_t record[sizeof curve + SEAL_REGISTER_OUTPUT + SEAL_CLASS_OUTPUT];
    size_t length = sizeof curve;
    memcpy(record, curve, sizeof curve);
    memcpy(record + length, model->bytes, model->length);
    length += model->length;
    memcpy(record + length, operation->field, operation->length);
    length += operation->length;
    model->length = written(call(record, length, model->bytes, sizeof model->bytes));
}

int main(int words, char **word) {
    struct operation operations[MOST] = {{.stamp = 10}, {.stamp = 784}, {.stamp = 20261116}};
    int number = words > 1 ? words - 1 : 3;
    struct stored_register model = {EMPTY_REGISTER, EMPTY_REGISTER_LENGTH};
    if (number > MOST)
        return 2;
    for (int i = 0; i < number; i++) {
        if (words > 1)
            operations[i].stamp = strtoull(word[1 + i], NULL, 10);
        make_class(&operations[i]);
    }

    printf("%-15s ", "first");
    print_stored_register(model.bytes);
    for (int i = 0; i < number; i++) {
        change(&model, &operations[i], seal_commit);
        printf("commit %-8" PRIu64 " ", operations[i].stamp);
        print_stored_register(model.bytes);
    }
    for (int i = number; i-- > 0;) {
        change(&model, &operations[i], seal_undo);
        printf("undo %-10" PRIu64 " ", operations[i].stamp);
        print_stored_register(model.bytes);
    }
    return 0;
}
