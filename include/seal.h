/* Seals of a model's history: the nine calls on byte areas of the proved library seal.
 *
 * To build and link (x86-64 Linux, nothing else is linked):
 *
 *     tests/build seal
 *     cc -Iinclude model.c target/staticlib/libseal.a
 *
 * Stored form. A field has a tag of one byte, its body's length in two bytes, and the body. Numbers are stored high
 * byte first, an element in eight bytes.
 *
 *     tag    body                                                       lengths allowed
 *     0x40   degree d of the field, 5 or 61                             1
 *     0x41   f3, f1, f0 of the curve y^2 + y = x^7 + f3 x^3 + f1 x + f0 24
 *     0x42   count of operations, at most 1,024                         2
 *     0x45   released step: the count at the last release, at most      2
 *            the count, and 0 where there was none
 *     0x43   a class: the coefficients of u without the leading 1, from 0, 16, 32, 48
 *            the highest power on, then those of v; neutral: length 0
 *     0x44   the class of an operation, stored like 0x43                0, 16, 32, 48
 *
 * A register is stored as 0x42, 0x45, 0x43, in this order, in the records of commit, undo and release and in what they
 * write. Up to SEAL_VERSION 3 it was 0x42, 0x43: put the five bytes 45 00 02 00 00 (hexadecimal), the released step 0,
 * between the two fields of a register that was stored then. A record without 0x45 is refused with 103. Archives have
 * no 0x45 and stay as they are.
 *
 * Answers. A call that is accepted writes at the start of the output and answers how many bytes it wrote, at most 61;
 * seal_membership writes nothing and answers 0. A call that is refused answers the refusal's number, 101 or more
 * (seal_refusals.h), and has changed no byte. No call changes the input, nor a byte of the output after those it
 * wrote. 101 comes before any byte of the input is looked at. A field must pass its checks of 102 to 111 before the one
 * after it is looked at, and 0x45 that of 120 too; 112 comes after the last field, and 113 to 116 and 121 come last.
 * 108 and 122 to 124 are of archives (seal_archive.h).
 *
 * Areas. The input may hold anything: nothing has to be checked before a call. The one duty of the caller is to hand
 * over areas that are his, as long as said, with the output apart from the input: where they overlap, nothing is
 * promised. An empty area may be NULL with length 0; any other length needs an address. No area needs an alignment.
 *
 * Threads and stack. The library has no state and no static data that changes, so that calls may be made at the same
 * time from any threads, as long as no output is used by another thread meanwhile. It takes no memory but stack,
 * of which SEAL_STACK bytes are enough as measured.
 *
 * What the calls do is written out in docs/SPECIFICATION.md: fields and classes in sections 1 and 2, the stored form
 * in 5, the refusals in 6, these calls in 7.
 */
#ifndef SEAL_H
#define SEAL_H

#include "seal_refusals.h"

#include <stddef.h>
#include <stdint.h>

#ifdef __cplusplus
extern "C" {
#endif

/* How long an output must be, and so how long one is always long enough. */
#define SEAL_CLASS_OUTPUT 51    /* opposite, sum, double, half, stamp: one 0x43 */
#define SEAL_REGISTER_OUTPUT 61 /* commit, undo, release: 0x42, 0x45, 0x43 */

/* Is the class one of the curve?
 * Reads 0x40, 0x41, 0x43; writes nothing and answers 0. Refusals: 102 to 107, 110 to 112. */
uint32_t seal_membership(const uint8_t *in, size_t in_len);

/* The opposite of a class.
 * Reads 0x40, 0x41, 0x43; writes 0x43. Refusals: 101 to 107, 110 to 112. */
uint32_t seal_opposite(const uint8_t *in, size_t in_len, uint8_t *out, size_t out_len);

/* The sum of two classes, as in a commutative group: neither order nor grouping changes the bytes that sums write; with
 * the neutral class the other class's field is written, and with its opposite that of the neutral class.
 * Reads 0x40, 0x41, 0x43, 0x43; writes 0x43. Refusals: 101 to 107, 110 to 112. */
uint32_t seal_sum(const uint8_t *in, size_t in_len, uint8_t *out, size_t out_len);

/* Twice a class.
 * Reads 0x40, 0x41, 0x43; writes 0x43. Refusals: 101 to 107, 110 to 112. */
uint32_t seal_double(const uint8_t *in, size_t in_len, uint8_t *out, size_t out_len);

/* The half of a class: the one class whose double it is.
 * Reads 0x40, 0x41, 0x43; writes 0x43. Refusals: 101 to 107, 110 to 112. */
uint32_t seal_half(const uint8_t *in, size_t in_len, uint8_t *out, size_t out_len);

/* The register after an operation: twice the seal plus the operation's class, the count one higher and the released
 * step kept.
 * Where one of the commits from a seal on has class E in place of D, the last seal moves by E - D, doubled once for
 * each commit that follows; where D and E differ, so do the last seals (examples/compare_variants.c).
 * Reads 0x40, 0x41, 0x42, 0x45, 0x43 (the seal), 0x44; writes 0x42, 0x45, 0x43: 13, 29, 45 or 61 bytes.
 * Refusals: 101 to 107, 109 to 112, 114, 120. */
uint32_t seal_commit(const uint8_t *in, size_t in_len, uint8_t *out, size_t out_len);

/* The register before an operation: the half of the seal less the operation's class, the count one lower and the
 * released step kept. At the released step it is refused with 121, and at count 0 with 113.
 * Reads 0x40, 0x41, 0x42, 0x45, 0x43 (the seal), 0x44; writes 0x42, 0x45, 0x43: 13, 29, 45 or 61 bytes.
 * Refusals: 101 to 107, 109 to 113, 120, 121. */
uint32_t seal_undo(const uint8_t *in, size_t in_len, uint8_t *out, size_t out_len);

/* The register after a release: the released step becomes the count, and count and seal are kept. No undo of the
 * register that is written, nor of what later calls make of it, goes behind this count; a caller may still hand over
 * an older register, which has the released step of its time. Any count may be released, 0 and 1,024 too, and again: a
 * second release writes the same.
 * Reads 0x40, 0x41, 0x42, 0x45, 0x43 (the seal), and no 0x44; writes 0x42, 0x45, 0x43: 13, 29, 45 or 61 bytes.
 * Refusals: 101 to 107, 109 to 112, 120. */
uint32_t seal_release(const uint8_t *in, size_t in_len, uint8_t *out, size_t out_len);

/* The class of an operation's stamp, a number below 2^(d-3). Of the eight numbers x from 8 stamp on it takes the first
 * at which y^2 + y = f(x) has roots, and as y the root with lowest bit 0. The class is [X + x, y]. On one curve, two
 * stamps that are accepted have different classes. A few stamps have none, which is 116: the caller takes another
 * stamp, as examples/stamped_model.c does, since the same stamp on the same curve is always answered alike.
 * Reads 0x40, 0x41; writes 0x43, 19 bytes. Refusals: 101 to 107, 112, 115, 116. */
uint32_t seal_stamp(const uint8_t *in, size_t in_len, uint64_t stamp, uint8_t *out, size_t out_len);

#ifdef __cplusplus
}
#endif

#endif
