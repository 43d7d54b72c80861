/* The days of codes and pairs in a well-formed book. */
#ifndef BOOK_DAYS_H
#define BOOK_DAYS_H

#include "bytes.h"

/* The kinds of entries, as document 01 numbers them. */
enum kind {
    NO_KIND,
    VACCINE,
    ANTIGEN,
    REASON,
    MANUFACTURER,
    DOSAGE_TYPE,
    REASON_NOT_IMMUNIZED,
    VACCINE_REASON,
    VACCINE_ANTIGEN,
    KINDS
};

enum { CODE_MOST = 20, CODES_MOST = 2 * CODE_MOST };

/* As numbers YYYYMMDD; the start is 0 where there is none. */
struct days {
    uint32_t start, end;
};

/* Where the entries of each kind stand. */
struct codes {
    const uint8_t *at[KINDS];
    size_t count[KINDS];
};

/* The codes of an entry, padded as in the book. */
struct code_key {
    enum kind kind;
    uint8_t codes[CODES_MOST];
};

/* The length of the first and the second code of a kind, 0 where it has no second. */
size_t first_code(enum kind kind);
size_t second_code(enum kind kind);

void find_kinds(struct codes *codes, const struct bytes *book);

/* False where the book has no such entry. */
bool find_days(const struct codes *codes, const struct code_key *key, struct days *days);

#endif
