/* The root finder by itself. Linking, slices and the float environment: sheet.h. */
#ifndef LEMONGULLY_POLYNOMIAL_H
#define LEMONGULLY_POLYNOMIAL_H

#include <stddef.h>
#include <stdint.h>

#ifdef __cplusplus
extern "C" {
#endif

enum {
    POLYNOMIAL_MOST_FLOATS = 18, /* nine coefficients, a high and a low part each */
    POLYNOMIAL_MOST_ROOTS = 509  /* places that do for every list */
};

/* What Roots refuses; it returns minus the number. */
enum {
    POLYNOMIAL_LENGTH = 21, /* an odd number of floats, or more than 18 */
    POLYNOMIAL_BOUNDS = 22, /* a bound is a NaN or outside 4 in magnitude, or lower > upper */
    POLYNOMIAL_PART = 23,   /* a part is infinite, a NaN, or beyond 2^400 in magnitude */
    POLYNOMIAL_RESULT = 24  /* the result or the kinds have fewer places than there are roots */
};

/* How a root arose. */
enum {
    POLYNOMIAL_TOUCH = 1,   /* a partition point, a bound or a root of the derivative, with a value near zero */
    POLYNOMIAL_CROSSING = 2 /* the end of a bisection alone, or the quotient of two coefficients */
};

/* The roots between two bounds of a polynomial whose coefficients are sums of a high and a low part,
 * constant first. Returns how many there are and writes them, increasing, to the first places of
 * result and how each arose to the first bytes of kinds; the rest of both is left. Or returns minus a
 * refusal, and all of both is left. */
int64_t polynomial_roots(const double *coefficients, size_t coefficients_length,
                         double lower, double upper,
                         double *result, size_t result_length,
                         uint8_t *kinds, size_t kinds_length);

#ifdef __cplusplus
}
#endif

#endif
