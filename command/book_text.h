/* A code book as a text: one entry a line, words apart by blanks.
 *
 *     vaccine               CODE START END
 *     antigen               CODE END
 *     reason                TWO-DIGITS END
 *     manufacturer          CODE END
 *     dosage-type           CODE END
 *     reason-not-immunized  CODE END
 *     vaccine-reason        VACCINE TWO-DIGITS END
 *     vaccine-antigen       VACCINE ANTIGEN END
 *
 * START is a date YYYYMMDD, END a date or `open`. Lines that are empty or begin with # are passed over, and after an entry whatever begins
 * with # is a comment. The entries may stand in any order. */
#ifndef BOOK_TEXT_H
#define BOOK_TEXT_H

#include "bytes.h"
#include "entries.h"

#include <stdio.h>

/* The entries of a text, and every fault that keeps them from being a book. False, and said why, where there is no memory for them. */
bool read_book_text(const struct bytes *text, struct entries *entries);

/* The book of entries that have no fault. False, and said why, where there is no memory for it. */
bool make_book(const struct entries *entries, struct bytes *book);

/* Prints the text of a sound book, in its order. False, and errno, where it cannot be written. */
bool print_book(const struct bytes *book, FILE *out);

#endif
