/* What seal.h, seal_register.h, seal_licence.h and seal_archive.h share: the version, the tags, the refusals by name
 * and the limit of counts. */
#ifndef SEAL_REFUSALS_H
#define SEAL_REFUSALS_H

/* Grows by 1 with every change that a caller can see: an answer, a number, a struct, a length. */
#define SEAL_VERSION 5

/* The tags of the stored form, which seal.h and, for archives, seal_archive.h describe. */
#define SEAL_TAG_DEGREE 0x40
#define SEAL_TAG_CURVE 0x41
#define SEAL_TAG_COUNT 0x42
#define SEAL_TAG_CLASS 0x43
#define SEAL_TAG_OPERATION 0x44
#define SEAL_TAG_RELEASED 0x45
#define SEAL_TAG_DRAWING 0x46
#define SEAL_TAG_PAIRS 0x48

/* The most operations that a register counts or an archive keeps, and the most classes of a row. */
#define SEAL_COUNT_LIMIT 1024

/* So many bytes of stack are enough for any call. The most that a call was measured to take is 17,808
 * (bench/stack.txt, which `bash bench/stack` makes); tests/run fails where a call takes more than half of this. */
#define SEAL_STACK 65536

/* The refusals, by number. By bytes they are checked field by field, as seal.h says, 120 comes when 0x45 is read and
 * 122 when 0x48 is; in place the order is seal_register.h's (docs/SPECIFICATION.md, section 6). 117 is not among them:
 * it is of calls on elements alone, and no call for C answers it. */
#define SEAL_OUTPUT_TOO_SHORT 101    /* the output is shorter than 51 bytes; for commit, undo and release, than 61; of
                                      * an archive, than the input and 48 more */
#define SEAL_HEAD_CUT 102            /* fewer than three bytes are left where a field's head is due */
#define SEAL_WRONG_TAG 103           /* a field has another tag than the one due */
#define SEAL_WRONG_LENGTH 104        /* the tag does not allow the body's length */
#define SEAL_WRONG_SHAPE 104         /* by value: a class's degree is above 3, or a number at or past it is not 0 */
#define SEAL_BODY_CUT 105            /* fewer bytes are left than the body's length says */
#define SEAL_WRONG_DEGREE 106        /* the degree is another number than 5 and 61 */
#define SEAL_CURVE_COEFFICIENT 107   /* f3, f1 or f0 is not below 2^d */
#define SEAL_DRAWING_NUMBER 108      /* of archives: a byte of the drawing number is outside 0x20 to 0x7E */
#define SEAL_COUNT_TOO_HIGH 109      /* the count, or the number of classes in a row, is above 1,024 */
#define SEAL_CLASS_COEFFICIENT 110   /* a coefficient of a class is not below 2^d */
#define SEAL_NOT_A_CLASS 111         /* v^2 + v + f is no multiple of u */
#define SEAL_BYTES_REMAIN 112        /* something follows the last field */
#define SEAL_UNDO_AT_ZERO 113        /* of an undo: the count is 0 */
#define SEAL_COMMIT_AT_LIMIT 114     /* of a commit: the count is 1,024 */
#define SEAL_STAMP_TOO_LARGE 115     /* the stamp is not below 2^(d-3) */
#define SEAL_STAMP_WITHOUT_CLASS 116 /* there is no root for any of the stamp's eight candidates: take another stamp */
#define SEAL_MULTIPLE_TOO_LARGE 118  /* n is not below 2^61 */
#define SEAL_TOO_MANY_HALVINGS 119   /* k is above 64 */
#define SEAL_RELEASED_TOO_HIGH 120   /* the released step is above the count */
#define SEAL_UNDO_AT_RELEASED 121    /* of an undo: the count is the released step, and not 0, which is 113 */
#define SEAL_WRONG_PAIR 122          /* of archives: pairs do not ascend, or one breaks 1 <= earlier < later <= count */
#define SEAL_NO_SUCH_OPERATION 123   /* of suppressing operation k: k lies outside 1 to the count */
#define SEAL_OPERATION_HELD 124      /* of suppressing operation k: a later one that is paired to it is not neutral */

/* Is an answer a refusal? An accepted call that answers one number answers at most 61, so that no answer is both.
 * Of the structs that calls answer, seal_row_walk and seal_written, it is asked of the member `refusal`, which is 0
 * where the call was accepted, and never of a length: that can be 101 or more. */
#define SEAL_IS_REFUSAL(answer) ((answer) >= SEAL_OUTPUT_TOO_SHORT)

#endif
