#include "text.h"

#include "shown.h"

#include <stdbool.h>
#include <string.h>

enum { TEN = 10, GROUP = 3, DIGITS_MOST = 27 };

void add_bytes(struct text *text, const uint8_t *at, size_t len)
{
    size_t room = sizeof text->at - text->len;
    if (len > room)
        len = room;
    memcpy(text->at + text->len, at, len);
    text->len += len;
}

void add(struct text *text, const char *words)
{
    add_bytes(text, (const uint8_t *)words, strlen(words));
}

static void add_digits(struct text *text, size_t number, bool in_groups)
{
    uint8_t digits[DIGITS_MOST];
    size_t start = sizeof digits, count = 0;
    do {
        if (in_groups && count > 0 && count % GROUP == 0)
            digits[--start] = ',';
        digits[--start] = (uint8_t)('0' + number % TEN);
        number /= TEN;
        count++;
    } while (number > 0);
    add_bytes(text, digits + start, sizeof digits - start);
}

void add_number(struct text *text, size_t number)
{
    add_digits(text, number, false);
}

void add_grouped(struct text *text, size_t number)
{
    add_digits(text, number, true);
}

void add_quoted(struct text *text, const uint8_t *at, size_t len)
{
    char shown[SHOWN_MOST * QUOTED_MOST];
    size_t shown_len = show_bytes(at, len < QUOTED_MOST ? len : QUOTED_MOST, true, shown);
    add(text, "\"");
    add_bytes(text, (const uint8_t *)shown, shown_len);
    add(text, "\"");
    if (len > QUOTED_MOST) {
        add(text, ".. (");
        add_grouped(text, len);
        add(text, " bytes)");
    }
}

void add_count(struct text *text, size_t number, const char *thing)
{
    add_grouped(text, number);
    add(text, " ");
    add(text, thing);
    if (number != 1)
        add(text, "s");
}
