/* Requests and sheets: docs/FORMAT.md has the bytes, the fields that are read, and each refusal.
 *
 * Link with crates/lemongully/out/liblemongully.a, which `rt lib` in crates/lemongully makes; it needs
 * memcpy and memset and nothing else:  cc program.c -Iinclude -Lcrates/lemongully/out -llemongully
 *
 * Lengths count elements, not bytes: places of double, bytes of uint8_t. Nothing is asked of a caller
 * but that each pointer lends as many elements as the number behind it says, is not null (also where
 * the number is 0), is aligned for its type, and that no two slices overlap. The functions keep no
 * state: they may be called from several threads at once. Measured on the examples, a call takes 18 KB
 * of stack for kinds 1 and 2, 64 KB for kind 3 and 45 KB for Roots; nothing is allocated. The float
 * environment is IEEE 754's default, as C starts with it: round to nearest, no flush to zero, no
 * denormals-are-zero (MXCSR 1F80), SSE2.
 */
#ifndef LEMONGULLY_SHEET_H
#define LEMONGULLY_SHEET_H

#include <stddef.h>
#include <stdint.h>

#ifdef __cplusplus
extern "C" {
#endif

enum {
    SHEET_EDITION = 2,        /* of new sheets; those of edition 1 are still checked */
    SHEET_REQUEST_SIZE = 296, /* bytes of a request */
    SHEET_NAME = 264,         /* where its name stands, the last 32 bytes of it */
    SHEET_NAME_SIZE = 32,
    SHEET_FIXED_SIZE = 312,   /* bytes of a sheet beside its angles: request and trailer */
    SHEET_FIXED_SIZE_1 = 280, /* and of one of edition 1, whose request has 264 bytes and no name */
    SHEET_PLACES_ONE = 2544,  /* work places that do for every request of kind 1 or 2 */
    SHEET_PLACES_TWO = 175618 /* and of kind 3; an ordinary one takes some hundreds */
};

/* Bytes of a new sheet of n angles. */
#define SHEET_SIZE(n) (8 * (size_t)(n) + SHEET_FIXED_SIZE)

/* What Sampling refuses; it returns minus the number. */
enum {
    SHEET_LENGTH = 1,     /* the request is not 296 bytes */
    SHEET_HEAD = 2,       /* kind, a flag or a reserved byte */
    SHEET_NAME_BYTE = 41, /* the name is not characters 32 to 126 and then zeros; before 3 */
    SHEET_SIGN = 3,       /* a read sign is neither 1 nor 255 */
    SHEET_NOT_FINITE = 4, /* the rotation or its length is infinite or a NaN */
    SHEET_ZERO = 5,       /* the rotation's length is 0 */
    SHEET_ARM = 6,        /* a read angle of the arm is not within 8 */
    SHEET_REFERENCE = 7,  /* a read reference is infinite or a NaN */
    SHEET_OFFSET = 8,     /* a read offset is not within a whole turn */
    SHEET_WORK = 10,      /* too few work places */
    SHEET_OUTPUT = 11     /* the output has fewer than SHEET_SIZE(n) bytes */
};

/* What Check refuses. */
enum {
    SHEET_CHECK_LENGTH = 31,  /* fewer than 280 bytes */
    SHEET_CHECK_TRAILER = 32, /* the edition, the length or the trailer */
    SHEET_CHECK_REQUEST = 33, /* the request inside meets one of 2 to 8 or 41 */
    SHEET_CHECK_UNREAD = 34,  /* an unread field is not zero */
    SHEET_CHECK_WORK = 35,    /* too few work places */
    SHEET_CHECK_ANGLES = 36   /* the angles or their number are others */
};

/* Sampling: returns n and writes the sheet to the first SHEET_SIZE(n) bytes of output, whose rest is
 * left; or returns minus a refusal and leaves all of output. After every answer each place of work is
 * +0.0, whatever it held. */
int64_t sheet_sample(const uint8_t *request, size_t request_length,
                     double *work, size_t work_length,
                     uint8_t *output, size_t output_length);

/* Check: returns n if the sheet is the one that its edition, 1 or 2, lays out for the request inside
 * it (for edition 2, the one that Sampling writes), or minus a refusal. After every answer each place
 * of work is +0.0. */
int64_t sheet_check(const uint8_t *sheet, size_t sheet_length,
                    double *work, size_t work_length);

#ifdef __cplusplus
}
#endif

#endif
