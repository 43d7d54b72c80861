#include "book_days.h"

#include "book_form.h"
#include "digits.h"

#include <string.h>

size_t first_code(enum kind kind)
{
    return kind == NO_KIND ? 0 : BOOK_KINDS[kind].part[0].width;
}

size_t second_code(enum kind kind)
{
    return kind != NO_KIND && BOOK_KINDS[kind].codes > 1 ? BOOK_KINDS[kind].part[1].width : 0;
}

static size_t key_bytes(enum kind kind)
{
    return first_code(kind) + second_code(kind);
}

static size_t entry_bytes(enum kind kind)
{
    return entry_length(&BOOK_KINDS[kind]);
}

/* Entries ascend by kind, so that those of one kind stand together. */
void find_kinds(struct codes *codes, const struct bytes *book)
{
    memset(codes, 0, sizeof *codes);
    for (size_t i = 0; i < book->len;) {
        uint8_t kind = book->at[i];
        if (kind == NO_KIND || kind >= KINDS || entry_bytes(kind) > book->len - i)
            return;
        if (codes->count[kind]++ == 0)
            codes->at[kind] = book->at + i;
        i += entry_bytes(kind);
    }
}

static struct days days_of(enum kind kind, const uint8_t *entry)
{
    const uint8_t *end = entry + entry_bytes(kind) - DATE_BYTES, *start = entry + 1 + key_bytes(kind);
    struct days days = {start < end ? number_of(start, DATE_BYTES) : 0, number_of(end, DATE_BYTES)};
    return days;
}

bool find_days(const struct codes *codes, const struct code_key *key, struct days *days)
{
    enum kind kind = key->kind;
    size_t low = 0, high = codes->count[kind];
    while (low < high) {
        size_t middle = low + (high - low) / 2;
        const uint8_t *entry = codes->at[kind] + middle * entry_bytes(kind);
        int order = memcmp(key->codes, entry + 1, key_bytes(kind));
        if (order == 0) {
            *days = days_of(kind, entry);
            return true;
        }
        if (order < 0)
            high = middle;
        else
            low = middle + 1;
    }
    return false;
}
