/* Switches off an operation in the middle of an archive and keeps the later ones, or says why it stays.
 *
 *     tests/build seal_archive
 *     cc -Iinclude -o suppress_bend examples/suppress_bend.c target/staticlib/libseal_archive.a
 *     ./suppress_bend examples/bends.bin 2                 # a bend with a hole beside it, which holds it
 *     ./suppress_bend examples/bends.bin 3                 # the other bend: prints the old seal and the new one
 *     ./suppress_bend examples/bends.bin 3 suppressed.bin  # and writes the new archive
 *
 * Operations are counted from 1, the oldest. The status is 0 where the operation was suppressed, 1 where that was
 * refused, 2 where a file cannot be read or written. What it prints for the operations 1, 2, 3 and 7 of
 * examples/bends.bin, which has six, is in examples/suppress_bend.txt.
 */
#include "example.h"
#include "seal_archive.h"

#include <stdlib.h>

/* An archive that was read to its end: one that was accepted, or refused with 123 or 124. So its heads can be
 * followed. */
struct archive {
    uint64_t count;
    const uint8_t *seal; /* the field of the last seal, after which come those of the operations, newest first */
    const uint8_t *pair; /* the first of the pairs */
    size_t pairs;
};

static const uint8_t *after(const uint8_t *field, uint64_t fields) {
    while (fields-- > 0)
        field = next_field(field);
    return field;
}

/* The fields are degree, curve, drawing number, count, seal, the operations and, where there are pairs, these. */
static struct archive fields_of(const uint8_t *bytes, size_t length) {
    const uint8_t *count = after(bytes, 3);
    struct archive archive = {number_at(count + HEAD, 2), next_field(count), NULL, 0};
    const uint8_t *pairs = after(archive.seal, 1 + archive.count);
    if (pairs < bytes + length) {
        archive.pair = pairs + HEAD;
        archive.pairs = body_length(pairs) / 4;
    }
    return archive;
}

/* The field of operation k, counted from the oldest. */
static const uint8_t *operation(const struct archive *archive, uint64_t k) {
    return after(archive->seal, 1 + archive->count - k);
}

/* Says which later operations hold operation k: those that are paired to it and are not neutral. */
static void say_holding(const struct archive *archive, uint64_t k) {
    for (size_t i = 0; i < archive->pairs; i++) {
        const uint8_t *pair = archive->pair + 4 * i;
        uint64_t later = number_at(pair, 2), earlier = number_at(pair + 2, 2);
        if (earlier == k && body_length(operation(archive, later)) > 0)
            printf("Operation %" PRIu64 " is held by operation %" PRIu64 ": suppress that one first.\n", k, later);
    }
}

/* What the user is told where the call is refused. */
static void say_refused(uint32_t refusal, const uint8_t *bytes, size_t length, uint64_t k) {
    struct archive archive;
    switch (refusal) {
    case SEAL_OPERATION_HELD:
        archive = fields_of(bytes, length);
        say_holding(&archive, k);
        break;
    case SEAL_NO_SUCH_OPERATION:
        archive = fields_of(bytes, length);
        printf("There is no operation %" PRIu64 ": the archive keeps %" PRIu64 ", of which 1 is the oldest.\n", k,
               archive.count);
        break;
    case SEAL_HEAD_CUT:
    case SEAL_BODY_CUT: printf("The archive ends too early.\n"); break;
    case SEAL_BYTES_REMAIN: printf("Something follows the archive's last field.\n"); break;
    case SEAL_WRONG_PAIR: printf("The archive's pairs do not fit its operations, or are not in order.\n"); break;
    default: printf("This is no archive, or it is damaged: refused %" PRIu32 ".\n", refusal); break;
    }
}

static void say_seal(const char *what, const uint8_t *bytes, size_t length) {
    struct archive archive = fields_of(bytes, length);
    printf("%s ", what);
    print_stored_class(archive.seal);
}

/* Writes the file; ends the program where that fails. */
static void keep(const char *name, const uint8_t *bytes, size_t length) {
    FILE *file = fopen(name, "wb");
    int kept = file != NULL && fwrite(bytes, 1, length, file) == length;
    if (file != NULL && fclose(file) != 0)
        kept = 0;
    if (!kept) {
        perror(name);
        exit(2);
    }
}

int main(int words, char **word) {
    /* one byte more than any archive has: a longer file is refused by its first bytes */
    static uint8_t in[SEAL_ARCHIVE_LONGEST + 1], out[sizeof in + SEAL_ARCHIVE_GROWTH];
    if (words != 3 && words != 4) {
        fprintf(stderr, "usage: suppress_bend ARCHIVE K [NEW]\n");
        return 2;
    }
    FILE *file = fopen(word[1], "rb");
    if (file == NULL) {
        perror(word[1]);
        return 2;
    }
    size_t in_len = fread(in, 1, sizeof in, file);
    uint64_t k = strtoull(word[2], NULL, 10);
    fclose(file);

    struct seal_written written = seal_suppress(in, in_len, k, out, sizeof out);
    if (written.refusal != 0) {
        say_refused(written.refusal, in, in_len, k);
        return 1;
    }
    size_t out_len = (size_t)written.length;
    printf("Operation %" PRIu64 " is suppressed. The archive had %zu bytes and has %zu.\n", k, in_len, out_len);
    say_seal("old seal", in, in_len);
    say_seal("new seal", out, out_len);
    if (words == 4)
        keep(word[3], out, out_len);
    return 0;
}
