/* Reads a sheet from standard input and prints its pages, a form feed between two.
 *
 *   (cd crates/lemongully && rt lib)
 *   cc -O2 examples/c/show_pages.c -Iinclude -Lcrates/lemongully/out -llemongully -o show_pages_c
 *   ./show_pages_c < examples/joint_2.sheet | cmp - examples/joint_2.page
 *
 * Each call checks the sheet anew; the first answer tells whether it is one.
 */
#include "lemongully/page.h"

#include <stdio.h>

enum { PLACES = 4096, BYTES = 65536 };

static double work[PLACES];
static uint8_t sheet[BYTES + 1];
static uint8_t text[PAGE_SIZE];

int main(void)
{
    size_t length = fread(sheet, 1, sizeof sheet, stdin);
    if (ferror(stdin)) {
        fputs("not read\n", stderr);
        return 2;
    }
    if (length > BYTES) {
        fputs("too long\n", stderr);
        return 1;
    }
    for (uint64_t page = 1;; page++) {
        int64_t n = page_text(sheet, length, page, work, PLACES, text, PAGE_SIZE);
        if (n == -PAGE_NUMBER)
            break; /* past the last page */
        if (n < 0) {
            fprintf(stderr, "refused %lld\n", (long long)-n);
            return 1;
        }
        if (page > 1)
            putchar('\f');
        fwrite(text, 1, (size_t)n, stdout);
    }
    if (fflush(stdout) != 0 || ferror(stdout)) {
        fputs("not written\n", stderr);
        return 2;
    }
    return 0;
}
