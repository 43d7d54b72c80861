/* Short texts that are put together in memory. What does not fit any more is left out. */
#ifndef TEXT_H
#define TEXT_H

#include <stddef.h>
#include <stdint.h>

enum { TEXT_ROOM = 2000, QUOTED_MOST = 60 };

struct text {
    size_t len;
    char at[TEXT_ROOM];
};

void add(struct text *text, const char *words);
void add_bytes(struct text *text, const uint8_t *at, size_t len);

/* 5000000 */
void add_number(struct text *text, size_t number);

/* 5,000,000 */
void add_grouped(struct text *text, size_t number);

/* In quotes, as shown.h has it; of a long text the start alone, and how long it is. */
void add_quoted(struct text *text, const uint8_t *at, size_t len);

/* "1 finding", "2 findings" */
void add_count(struct text *text, size_t number, const char *thing);

#endif
