/* Reads a request from standard input and writes its sheet to standard output.
 *
 *   (cd crates/lemongully && rt lib)
 *   cc -O2 examples/c/make_sheet.c -Iinclude -Lcrates/lemongully/out -llemongully -o make_sheet_c
 *   ./make_sheet_c < examples/joint_2.request | cmp - examples/joint_2.sheet
 */
#include "lemongully/sheet.h"

#include <stdio.h>

enum { PLACES = 4096, BYTES = 65536 };

static double work[PLACES];
static uint8_t output[BYTES];

int main(void)
{
    /* One byte more than a request has, so that a longer one is refused. */
    uint8_t request[SHEET_REQUEST_SIZE + 1];
    size_t length = fread(request, 1, sizeof request, stdin);
    if (ferror(stdin)) {
        fputs("not read\n", stderr);
        return 2;
    }
    int64_t n = sheet_sample(request, length, work, PLACES, output, BYTES);
    if (n < 0) {
        fprintf(stderr, "refused %lld\n", (long long)-n);
        return 1;
    }
    if (fwrite(output, 1, SHEET_SIZE(n), stdout) != SHEET_SIZE(n) || fflush(stdout) != 0) {
        fputs("not written\n", stderr);
        return 2;
    }
    return 0;
}
