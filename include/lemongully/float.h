/* The float floor and the trigonometry, by bits: each float goes in and comes out as the 64 bits of
 * an IEEE 754 binary64, and every NaN that comes out is 7FF8000000000000. A NaN that goes in may have
 * any sign and payload; they are not looked at. Every function answers for every argument.
 * Linking and the float environment: sheet.h. */
#ifndef LEMONGULLY_FLOAT_H
#define LEMONGULLY_FLOAT_H

#include <stdint.h>

#ifdef __cplusplus
extern "C" {
#endif

#define FLOAT_NAN UINT64_C(0x7FF8000000000000)
#define FLOAT_P UINT64_C(0x400921FB54442D18)      /* the float next to pi */
#define FLOAT_TWO_P UINT64_C(0x401921FB54442D18)

uint64_t float_bits(uint64_t x);                  /* x itself; any NaN becomes FLOAT_NAN */
uint64_t float_is_finite(uint64_t x);             /* 1 or 0 */
uint64_t float_is_sign_positive(uint64_t x);      /* 1 or 0 */
uint64_t float_total_le(uint64_t x, uint64_t y);  /* 1 or 0: x at or before y, -0.0 before +0.0, a NaN last */
uint64_t float_abs(uint64_t x);
uint64_t float_minimum(uint64_t x, uint64_t y);   /* beside a NaN the other; of equals the first */
uint64_t float_maximum(uint64_t x, uint64_t y);
uint64_t float_clamp(uint64_t x);                 /* to -1 and 1 */
int64_t float_floor(uint64_t x);                  /* as a whole number, held to the range of int64_t; 0 for a NaN */
uint64_t float_rem_euclid(uint64_t x, uint64_t m);
uint64_t float_mul_add(uint64_t a, uint64_t b, uint64_t c); /* a * b + c, rounded once */
uint64_t float_sqrt(uint64_t x);
uint64_t float_product_error(uint64_t a, uint64_t b);       /* a * b less its rounded product, rounded once */

/* sine, cosine and tangent for arguments within 32 in magnitude; a NaN beyond */
uint64_t float_sin(uint64_t x);
uint64_t float_cos(uint64_t x);
uint64_t float_tan(uint64_t x);
uint64_t float_atan(uint64_t x);
uint64_t float_atan2(uint64_t y, uint64_t x);
uint64_t float_acos(uint64_t x);
uint64_t float_asin(uint64_t x);
uint64_t float_hypot(uint64_t x, uint64_t y);

#ifdef __cplusplus
}
#endif

#endif
