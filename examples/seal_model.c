/* Seals a model: commits three operations, undoes them, and prints the register after each call.
 *
 *     tests/build seal
 *     cc -Iinclude -o seal_model examples/seal_model.c target/staticlib/libseal.a
 *     ./seal_model                  # the first seal is neutral
 *     ./seal_model 2:0,1:1,1        # or a given class, here [x^2 + 1, x + 1]
 *
 * The curve is y^2 + y = x^7 + 1 over GF(2^61). A class is written as in the walk report: its degree, u below the
 * leading term and v, coefficients in hexadecimal from the highest power down. An operation's class is the modeller's
 * choice; here the three are fixed.
 */
#include "example.h"
#include "seal.h"

#include <stdlib.h>
#include <string.h>

/* The register as it is stored: count (0x42), released step (0x45) and seal (0x43), as commit and undo write them. */
struct stored_register {
    uint8_t bytes[SEAL_REGISTER_OUTPUT];
    size_t length;
};

/* A class field: tag, length, at most six coefficients. */
struct stored_class {
    uint8_t bytes[SEAL_CLASS_OUTPUT];
    size_t length;
};

/* The field of a class that is written as in the walk report; ends the program where it is not. */
static struct stored_class class_field(uint8_t tag, const char *text) {
    char *at = NULL;
    unsigned long degree = strtoul(text, &at, 10);
    struct stored_class field = {{tag, 0, 0}, 3};
    if (at == text || degree > 3 || *at != ':') {
        fprintf(stderr, "no class: %s\n", text);
        exit(2);
    }
    field.bytes[2] = (uint8_t)(16 * degree);
    for (unsigned long i = 0; i < 2 * degree; i++) {
        uint64_t coefficient = strtoull(at + 1, &at, 16);
        for (int shift = 56; shift >= 0; shift -= 8)
            field.bytes[field.length++] = (uint8_t)(coefficient >> shift);
    }
    return field;
}

static void print(const char *what, const struct stored_register *model) {
    printf("%-16s ", what);
    print_stored_register(model->bytes);
}

/* Commits or undoes: the record is the curve, the register and the operation. */
static void change(struct stored_register *model, const char *operation,
                   uint32_t (*call)(const uint8_t *, size_t, uint8_t *, size_t)) {
    struct stored_class field = class_field(SEAL_TAG_OPERATION, operation);
    uint8_t record[sizeof curve + SEAL_REGISTER_OUTPUT + SEAL_CLASS_OUTPUT];
    size_t length = 0;
    memcpy(record, curve, sizeof curve);
    length += sizeof curve;
    memcpy(record + length, model->bytes, model->length);
    length += model->length;
    memcpy(record + length, field.bytes, field.length);
    length += field.length;

    uint32_t answer = call(record, length, model->bytes, sizeof model->bytes);
    if (SEAL_IS_REFUSAL(answer)) {
        fprintf(stderr, "refused %u\n", (unsigned)answer);
        exit(1);
    }
    model->length = answer;
}

int main(int words, char **word) {
    const char *operations[3] = {
        "1:16bb3a04125e4906:158e92d59dfa96f6",
        "1:f660a7a438e4ca4:694acb2cd0ff434",
        "1:11715c663bf5481c:7e39414516309a0",
    };
    const char *commits[3] = {"commit hole", "commit bend", "commit flange"};
    const char *undos[3] = {"undo hole", "undo bend", "undo flange"};
    struct stored_class seal = class_field(SEAL_TAG_CLASS, words > 1 ? word[1] : "0::");
    struct stored_register model = {EMPTY_REGISTER, 0};
    size_t before_seal = (size_t)(seal_field(model.bytes) - model.bytes);
    memcpy(model.bytes + before_seal, seal.bytes, seal.length);
    model.length = before_seal + seal.length;

    print("first", &model);
    for (int i = 0; i < 3; i++) {
        change(&model, operations[i], seal_commit);
        print(commits[i], &model);
    }
    for (int i = 3; i-- > 0;) {
        change(&model, operations[i], seal_undo);
        print(undos[i], &model);
    }
    return 0;
}
