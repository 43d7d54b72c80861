/* The form of a code book, as document 01 has it. The library says whether bytes are a book: this tells what is wrong with them. */
#ifndef BOOK_FORM_H
#define BOOK_FORM_H

#include <stdbool.h>
#include <stddef.h>
#include <stdint.h>

enum { FIRST_KIND = 1, LAST_KIND = 8, PARTS_MOST = 3, DATE_BYTES = 8 };

enum part_form { CODE, TWO_DIGITS, START, END };

struct part {
    enum part_form form;
    size_t width;
};

/* A kind of entry: its name in a text, and its parts, first the codes and then the days. */
struct book_kind {
    const char *name;
    size_t codes, parts;
    struct part part[PARTS_MOST];
};

/* By the byte of kind, from FIRST_KIND to LAST_KIND. */
extern const struct book_kind BOOK_KINDS[LAST_KIND + 1];

extern const uint8_t OPEN_END[DATE_BYTES];

/* All bytes of an entry, that of its kind included. */
size_t entry_length(const struct book_kind *kind);

bool is_open_end(const uint8_t *day);

/* What is wrong with a book, at its first fault; false where nothing is. */
bool explain_book(const uint8_t *bytes, size_t len, char *why, size_t room);

#endif
