/* The roots of a polynomial between two bounds, and how each arose, for a drawing tool to colour.
 *
 *   (cd crates/lemongully && rt lib)
 *   cc -O2 examples/c/find_roots.c -Iinclude -Lcrates/lemongully/out -llemongully -o find_roots
 *   ./find_roots -4 4 -1 0 1
 *
 * The arguments are the bounds, then the coefficients, constant first. It prints
 *
 *   -1 crossing
 *   1 crossing
 */
#include "lemongully/polynomial.h"

#include <stdio.h>
#include <stdlib.h>

int main(int argc, char **argv)
{
    /* One coefficient more than Roots takes, so that a longer list is refused. */
    double coefficients[POLYNOMIAL_MOST_FLOATS + 2] = {0};
    double roots[POLYNOMIAL_MOST_ROOTS];
    uint8_t kinds[POLYNOMIAL_MOST_ROOTS];
    if (argc < 3) {
        fputs("find_roots LOWER UPPER COEFFICIENT..\n", stderr);
        return 2;
    }
    size_t length = 0;
    for (int i = 3; i < argc && length < POLYNOMIAL_MOST_FLOATS + 2; i++) {
        coefficients[length] = strtod(argv[i], NULL); /* the high part; the low part is zero */
        length += 2;
    }
    int64_t n = polynomial_roots(coefficients, length, strtod(argv[1], NULL), strtod(argv[2], NULL),
                                 roots, POLYNOMIAL_MOST_ROOTS, kinds, POLYNOMIAL_MOST_ROOTS);
    if (n < 0) {
        fprintf(stderr, "refused %lld\n", (long long)-n);
        return 1;
    }
    for (int64_t i = 0; i < n; i++)
        printf("%.17g %s\n", roots[i], kinds[i] == POLYNOMIAL_TOUCH ? "touch" : "crossing");
    return 0;
}
