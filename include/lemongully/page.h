/* Pages of a sheet's angles as text: docs/FORMAT.md has the columns. See sheet.h for linking, lengths
 * and the float environment.
 */
#ifndef LEMONGULLY_PAGE_H
#define LEMONGULLY_PAGE_H

#include <stddef.h>
#include <stdint.h>

#ifdef __cplusplus
extern "C" {
#endif

enum {
    PAGE_ANGLES = 60,    /* on a page; on the last those that remain */
    PAGE_LINE = 65,      /* bytes of a line: 64 characters and a line feed */
    PAGE_SIZE = 3965,    /* bytes that do for every page: a name's line and 60 more */
    PAGE_DECIMAL = 16    /* bytes of an angle in decimals */
};

/* Pages that n angles take; without angles there is one. */
#define PAGE_COUNT(n) ((n) == 0 ? (uint64_t)1 : ((uint64_t)(n) + PAGE_ANGLES - 1) / PAGE_ANGLES)

/* What is refused beside what Check refuses (sheet.h), which comes first. */
enum {
    PAGE_SHORT = 42, /* the text slice is shorter than the text */
    PAGE_NUMBER = 43 /* the page number is 0 or past the last page; before 42 */
};

/* The page of a sheet, from 1: returns the text's length and writes the text to the first bytes,
 * whose rest is left; or returns minus a refusal and leaves all of it. The sheet is checked, so work is
 * lent as for sheet_check; after every answer each place of it is +0.0. */
int64_t page_text(const uint8_t *sheet, size_t sheet_length, uint64_t page,
                  double *work, size_t work_length,
                  uint8_t *text, size_t text_length);

/* One angle, by its bits, with nine decimals, right-aligned in the first 16 bytes: returns 16, or
 * -PAGE_SHORT and leaves all of it if fewer are lent. What is not finite, or too long, shows 16
 * asterisks. */
int64_t page_decimal(uint64_t angle, uint8_t *text, size_t text_length);

#ifdef __cplusplus
}
#endif

#endif
