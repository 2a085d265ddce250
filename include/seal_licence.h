/* Multiples and repeated halves of a class: the two calls on byte areas of the proved library seal_licence, a product
 * of its own that holds nothing of registers or archives.
 *
 * To build and link (x86-64 Linux, nothing else is linked):
 *
 *     tests/build seal_licence
 *     cc -Iinclude licence.c target/staticlib/libseal_licence.a
 *
 * It may be linked together with the libraries of seal.h, seal_register.h and seal_archive.h.
 *
 * The record. Both calls read the fields 0x40, 0x41 and 0x43, in this order and with nothing after them. A field has a
 * tag of one byte, its body's length in two bytes, and the body. Numbers are stored high byte first, an element in
 * eight bytes.
 *
 *     tag    body                                                       lengths allowed
 *     0x40   degree d of the field, 5 or 61                             1
 *     0x41   f3, f1, f0 of the curve y^2 + y = x^7 + f3 x^3 + f1 x + f0 24
 *     0x43   a class: the coefficients of u without the leading 1, from 0, 16, 32, 48
 *            the highest power on, then those of v; neutral: length 0
 *
 * The number n or k is handed over beside the record. The output gets one field 0x43; with the first 31 bytes of the
 * record before it, it is the record of a further call.
 *
 * Answers. A call that is accepted writes at the start of the output and answers how many bytes it wrote: 3, 19, 35 or
 * 51. A call that is refused answers the refusal's number, 101 or more (seal_refusals.h), and has changed no byte. No
 * call changes the input, nor a byte of the output after those it wrote. 101 comes before any byte of the input is
 * looked at. A field must pass its checks of 102 to 107, 110 and 111 before the one after it is looked at; 112 comes
 * after the last field, and 118 or 119 comes last.
 *
 * Areas. The input may hold anything: nothing has to be checked before a call. The one duty of the caller is to hand
 * over areas that are his, as long as said, with the output apart from the input: where they overlap, nothing is
 * promised. An empty area may be NULL with length 0; any other length needs an address. No area needs an alignment.
 *
 * Threads and stack. The library has no state and no static data that changes, so that calls may be made at the same
 * time from any threads, as long as no output is used by another thread meanwhile. It takes no memory but stack,
 * of which SEAL_STACK bytes are enough as measured.
 *
 * What the calls do is written out in docs/SPECIFICATION.md: classes in section 2, multiples and halvings in 2.11, the
 * stored form in 5, the refusals in 6, these calls in 7. examples/licence_numbers.c uses them.
 */
#ifndef SEAL_LICENCE_H
#define SEAL_LICENCE_H

#include "seal_refusals.h"

#include <stddef.h>
#include <stdint.h>

#ifdef __cplusplus
extern "C" {
#endif

/* How long an output must be, and so how long one is always long enough. */
#define SEAL_LICENCE_OUTPUT 51

/* One more than the largest n, and the largest k. */
#define SEAL_MULTIPLE_LIMIT ((uint64_t)1 << 61)
#define SEAL_HALVINGS_LIMIT 64

/* n times a class: the sum of n terms that are the class, and the neutral class for n = 0. It takes at most 61
 * doublings and as many sums, whatever n is. (m + n) times a class is the sum of m times and n times it, and m n times
 * it is m times n times it, where the numbers are below 2^61.
 * Reads 0x40, 0x41, 0x43; writes 0x43. Refusals: 101 to 107, 110 to 112, 118 for n of 2^61 or more. */
uint32_t seal_multiple(const uint8_t *in, size_t in_len, uint64_t n, uint8_t *out, size_t out_len);

/* The class halved k times, and the class itself for k = 0: the one class that becomes the given one when it is
 * doubled k times. So it undoes k doublings, and for k below 61 it undoes 2^k times.
 * Reads 0x40, 0x41, 0x43; writes 0x43. Refusals: 101 to 107, 110 to 112, 119 for k above 64. */
uint32_t seal_halvings(const uint8_t *in, size_t in_len, uint64_t k, uint8_t *out, size_t out_len);

#ifdef __cplusplus
}
#endif

#endif
