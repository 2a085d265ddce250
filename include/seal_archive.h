/* An archive with one of its operations suppressed: the call on byte areas of the proved library seal_archive.
 *
 * To build and link (x86-64 Linux, nothing else is linked):
 *
 *     tests/build seal_archive
 *     cc -Iinclude model.c target/staticlib/libseal_archive.a
 *
 * It may be linked together with the libraries of seal.h, seal_register.h and seal_licence.h.
 *
 * The archive holds a model's last seal and its latest operations: the fields below in this order, with nothing before,
 * between or after them. A field has a tag of one byte, its body's length in two bytes, and the body. Numbers are
 * stored high byte first, an element in eight bytes.
 *
 *     tag    body                                                       lengths allowed
 *     0x40   degree d of the field, 5 or 61                             1
 *     0x41   f3, f1, f0 of the curve y^2 + y = x^7 + f3 x^3 + f1 x + f0 24
 *     0x46   the drawing number, of bytes 0x20 to 0x7E                  0 to 38
 *     0x42   n, the count of the operations kept, at most 1,024         2
 *     0x43   the last seal, a class: the coefficients of u without the  0, 16, 32, 48
 *            leading 1, from the highest power on, then those of v;
 *            neutral: length 0
 *     0x44   the class of an operation, stored like 0x43; there are n,  0, 16, 32, 48
 *            the newest first
 *     0x48   pairs of operations, later and earlier, each a number of   4 to 8,192, in steps of 4
 *            two bytes; an archive without pairs has no 0x48
 *
 * Operations are numbered 1 to n from the oldest: number k stands behind n - k others. In a pair the earlier number is
 * at least 1 and below the later one, which is at most n. Pairs ascend by the later number, then by the earlier one,
 * and none stands twice. A byte other than 0x48 after the operations is 112, and so is any byte after 0x48.
 *
 * An operation is held where a pair has it as the earlier one and the later one is not neutral. One that is suppressed
 * is neutral, so that it holds no other from then on: what depends on an operation is suppressed first, and then the
 * operation itself.
 *
 * Answers. An accepted call answers refusal 0 and the number of bytes that it wrote, at the start of the output; a
 * refused call answers the refusal's number (seal_refusals.h) and length 0, and has changed no byte. The refusal alone
 * says which of the two it was, since a length can be 101 or more. No call changes the input, nor a byte of the output
 * after those it wrote. Checked in this order:
 *
 *     101              the output, before any byte of the input is looked at
 *     102 to 112, 122  the archive: a field must pass its checks of 102 to 111 before the one after it is looked at,
 *                      and 0x48 that of 122 too; 112 comes after the last field
 *     123              k, which is outside 1 to n; with n = 0 every k is
 *     124              operation k, which is held
 *
 * What is written. Every field is copied, 0x48 too, but for two. That of operation k becomes neutral, 0x44 0x00 0x00,
 * so that n and the numbers of all operations stay. That of the last seal becomes the old seal less 2^(n-k) times the
 * class of operation k, where 2^(n-k) times is n - k doublings. So a walk back from it meets the earliest seal of
 * before, and commits from there, over the operations written, lead to it. Both fields can change their lengths: what
 * is written is at most 32 bytes longer and at most 96 shorter than the input, in steps of 16. It is an archive again,
 * and can be handed to a further call. Suppressing a neutral operation writes the archive as it was.
 *
 * Areas. The input may hold anything: nothing has to be checked before a call. The one duty of the caller is to hand
 * over areas that are his, as long as said, with the output apart from the input: where they overlap, nothing is
 * promised. An empty area may be NULL with length 0; any other length needs an address. No area needs an alignment.
 *
 * Threads and stack. The library has no state and no static data that changes, so that calls may be made at the same
 * time from any threads, as long as no output is used by another thread meanwhile. It takes no memory but stack,
 * of which SEAL_STACK bytes are enough as measured.
 *
 * What the call does is written out in docs/SPECIFICATION.md: classes in section 2, the stored form in 5, the refusals
 * in 6, the archive and this call in 9. examples/suppress_bend.c uses it.
 */
#ifndef SEAL_ARCHIVE_H
#define SEAL_ARCHIVE_H

#include "seal_refusals.h"

#include <stddef.h>
#include <stdint.h>

#ifdef __cplusplus
extern "C" {
#endif

/* How much longer than the input an output must be, and so how much longer one is always long enough. */
#define SEAL_ARCHIVE_GROWTH 48

/* No accepted archive is longer than this, nor what is written: 4 + 27 + 41 + 5 + 51 + 1,024 * 51 + 8,195 bytes. */
#define SEAL_ARCHIVE_LONGEST 60547

/* What a call answers that writes an archive: 0 and how many bytes it wrote, or the refusal's number and length 0. */
struct seal_written {
    uint32_t refusal;
    uint64_t length;
};

/* Operation k suppressed: its class becomes neutral and the last seal follows. k counts from 1, the oldest. The time
 * grows with the archive's length and with n - k.
 * Reads 0x40, 0x41, 0x46, 0x42, 0x43, n times 0x44, and 0x48 where there is one; writes the same fields.
 * Refusals: 101 for an output of fewer than SEAL_ARCHIVE_GROWTH bytes more than the input has, 102 to 112, 122 for a
 * wrong pair, 123 for k outside 1 to n, 124 where operation k is held. */
struct seal_written seal_suppress(const uint8_t *in, size_t in_len, uint64_t k, uint8_t *out, size_t out_len);

#ifdef __cplusplus
}
#endif

#endif
