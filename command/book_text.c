#include "book_text.h"

#include "book_form.h"
#include "codes.h"
#include "dates.h"
#include "say.h"
#include "tuulveski.h"

#include <stdlib.h>
#include <string.h>

#define AS_TEXT(number) #number
#define NUMBER_TEXT(number) AS_TEXT(number)

static const char TOO_LONG[] = "the book passes " NUMBER_TEXT(TUULVESKI_BOOK_MOST) " bytes here";

static bool is_word(const struct word *word, const char *text)
{
    return word->len == strlen(text) && memcmp(word->at, text, word->len) == 0;
}

/* The byte of a kind by its name; 0 where there is none. */
static uint8_t kind_of(const struct word *name)
{
    for (uint8_t kind = FIRST_KIND; kind <= LAST_KIND; kind++)
        if (is_word(name, BOOK_KINDS[kind].name))
            return kind;
    return 0;
}

static bool refuse_part(const struct word *word, const struct part *part, char fault[FAULT_ROOM])
{
    char quoted[QUOTED_ROOM];
    quote(word, quoted);
    switch (part->form) {
    case CODE:
        snprintf(fault, FAULT_ROOM, "%s is not a code of 1 to %zu bytes in 33..126", quoted, part->width);
        break;
    case TWO_DIGITS:
        snprintf(fault, FAULT_ROOM, "%s is not two digits", quoted);
        break;
    case START:
        snprintf(fault, FAULT_ROOM, "start %s is not a date", quoted);
        break;
    case END:
        snprintf(fault, FAULT_ROOM, "end %s is neither a date nor open", quoted);
        break;
    }
    return false;
}

static bool is_part(const struct word *word, const struct part *part)
{
    bool has_width = word->len == part->width;
    switch (part->form) {
    case CODE:
        return is_code(word->at, word->len, part->width);
    case TWO_DIGITS:
        return has_width && are_digits(word->at, part->width);
    case START:
        return has_width && is_date(word->at);
    case END:
        return is_word(word, "open") || (has_width && (is_open_end(word->at) || is_date(word->at)));
    }
    return false;
}

static bool add_part(const struct word *word, const struct part *part, struct entry *entry, char fault[FAULT_ROOM])
{
    uint8_t *to = entry->bytes + entry->len;
    if (!is_part(word, part))
        return refuse_part(word, part, fault);
    memset(to, ' ', part->width);
    if (part->form == END && is_word(word, "open"))
        memcpy(to, OPEN_END, DATE_BYTES);
    else
        memcpy(to, word->at, word->len);
    entry->len += part->width;
    return true;
}

static bool read_entry(const struct text_line *line, struct entry *entry, char fault[FAULT_ROOM])
{
    char quoted[QUOTED_ROOM];
    uint8_t number = kind_of(&line->words[0]);
    const struct book_kind *kind = &BOOK_KINDS[number];
    quote(&line->words[0], quoted);
    if (number == 0) {
        snprintf(fault, FAULT_ROOM, "%s is no kind of entry", quoted);
        return false;
    }
    if (!has_words(line, 1 + kind->parts)) {
        snprintf(fault, FAULT_ROOM, "%s takes %zu words after it", quoted, kind->parts);
        return false;
    }
    entry->bytes[0] = number;
    entry->len = 1;
    for (size_t i = 0; i < kind->parts; i++) {
        if (i == kind->codes)
            entry->key_len = entry->len;
        if (!add_part(&line->words[1 + i], &kind->part[i], entry, fault))
            return false;
    }
    return true;
}

static const struct entry_form BOOK_ENTRIES = {"the same codes", read_entry};

bool read_book_text(const struct bytes *text, struct entries *entries)
{
    size_t before, len = 0;
    if (!read_entries(text, &BOOK_ENTRIES, entries))
        return false;
    for (size_t i = 0; i < entries->count; i++) {
        struct entry *entry = &entries->all[i];
        before = len;
        if (entry->first_line == entry->line)
            len += entry->len;
        if (before <= TUULVESKI_BOOK_MOST && len > TUULVESKI_BOOK_MOST)
            mark_fault(entries, entry, TOO_LONG);
    }
    return true;
}

bool make_book(const struct entries *entries, struct bytes *book)
{
    book->len = 0;
    book->at = malloc(TUULVESKI_BOOK_MOST);
    if (book->at == NULL) {
        say("there is not enough memory");
        return false;
    }
    for (size_t i = 0; i < entries->count; i++) {
        const struct entry *entry = entries->ascending[i];
        memcpy(book->at + book->len, entry->bytes, entry->len);
        book->len += entry->len;
    }
    return true;
}

static bool print_part(const struct part *part, const uint8_t *at, FILE *out)
{
    if (part->form == END && is_open_end(at))
        return fputs(" open", out) >= 0;
    return fprintf(out, " %.*s", (int)code_length(at, part->width), (const char *)at) >= 0;
}

bool print_book(const struct bytes *book, FILE *out)
{
    for (size_t at = 0; at < book->len;) {
        const struct book_kind *kind = &BOOK_KINDS[book->at[at++]];
        bool printed = fputs(kind->name, out) >= 0;
        for (size_t i = 0; i < kind->parts; i++) {
            printed = printed && print_part(&kind->part[i], book->at + at, out);
            at += kind->part[i].width;
        }
        if (!printed || fputc('\n', out) == EOF)
            return false;
    }
    return true;
}
