#include "book_form.h"

#include "codes.h"
#include "dates.h"
#include "tuulveski.h"

#include <stdio.h>
#include <string.h>

const uint8_t OPEN_END[DATE_BYTES] = {'9', '9', '9', '9', '9', '9', '9', '9'};

const struct book_kind BOOK_KINDS[LAST_KIND + 1] = {
    {NULL, 0, 0, {{CODE, 0}}},
    {"vaccine", 1, 3, {{CODE, 20}, {START, DATE_BYTES}, {END, DATE_BYTES}}},
    {"antigen", 1, 2, {{CODE, 20}, {END, DATE_BYTES}}},
    {"reason", 1, 2, {{TWO_DIGITS, 2}, {END, DATE_BYTES}}},
    {"manufacturer", 1, 2, {{CODE, 3}, {END, DATE_BYTES}}},
    {"dosage-type", 1, 2, {{CODE, 4}, {END, DATE_BYTES}}},
    {"reason-not-immunized", 1, 2, {{CODE, 3}, {END, DATE_BYTES}}},
    {"vaccine-reason", 2, 3, {{CODE, 20}, {TWO_DIGITS, 2}, {END, DATE_BYTES}}},
    {"vaccine-antigen", 2, 3, {{CODE, 20}, {CODE, 20}, {END, DATE_BYTES}}},
};

static size_t parts_length(const struct book_kind *kind, size_t parts)
{
    size_t len = 0;
    for (size_t i = 0; i < parts; i++)
        len += kind->part[i].width;
    return len;
}

size_t entry_length(const struct book_kind *kind)
{
    return 1 + parts_length(kind, kind->parts);
}

bool is_open_end(const uint8_t *day)
{
    return memcmp(day, OPEN_END, DATE_BYTES) == 0;
}

/* Null where the part is sound. */
static const char *part_fault(const struct part *part, const uint8_t *at)
{
    switch (part->form) {
    case CODE:
        return is_padded(at, part->width) ? NULL : "is not a padded code";
    case TWO_DIGITS:
        return are_digits(at, part->width) ? NULL : "is not two digits";
    case START:
        return is_date(at) ? NULL : "is not a date";
    case END:
        return is_date(at) || is_open_end(at) ? NULL : "is neither a date nor 99999999";
    }
    return NULL;
}

static const char *part_name(const struct book_kind *kind, size_t i)
{
    if (kind->part[i].form == START)
        return "start";
    if (kind->part[i].form == END)
        return "end";
    if (kind->codes == 1)
        return "code";
    return i == 0 ? "first code" : "second code";
}

struct place {
    size_t entry, at; /* which entry it is, from 1, and where it starts, from 0 */
    const uint8_t *before; /* the entry before it; null at the first */
};

static bool explain_parts(const uint8_t *entry, const struct place *place, char *why, size_t room)
{
    const struct book_kind *kind = &BOOK_KINDS[entry[0]];
    size_t at = 1;
    for (size_t i = 0; i < kind->parts; i++) {
        const char *fault = part_fault(&kind->part[i], entry + at);
        if (fault != NULL) {
            snprintf(why, room, "entry %zu (%s), at offset %zu: the %s %s", place->entry, kind->name, place->at + at, part_name(kind, i),
                     fault);
            return true;
        }
        at += kind->part[i].width;
    }
    return false;
}

/* Entries of one kind have keys of one length; of two kinds, the first byte tells. */
static bool is_above(const uint8_t *entry, const uint8_t *before)
{
    const struct book_kind *kind = &BOOK_KINDS[entry[0]];
    if (entry[0] != before[0])
        return entry[0] > before[0];
    return memcmp(entry + 1, before + 1, parts_length(kind, kind->codes)) > 0;
}

static bool explain_entry(const uint8_t *entry, size_t left, const struct place *place, char *why, size_t room)
{
    if (entry[0] < FIRST_KIND || entry[0] > LAST_KIND) {
        snprintf(why, room, "entry %zu, at offset %zu: %u is no kind of entry%s", place->entry, place->at, (unsigned)entry[0],
                 place->at == 0 && entry[0] >= ' ' ? "; of a text, `tuulveski book make` makes a book" : "");
        return true;
    }
    const struct book_kind *kind = &BOOK_KINDS[entry[0]];
    if (left < entry_length(kind)) {
        snprintf(why, room, "entry %zu (%s), at offset %zu: it has %zu bytes instead of %zu", place->entry, kind->name, place->at, left,
                 entry_length(kind));
        return true;
    }
    if (explain_parts(entry, place, why, room))
        return true;
    if (place->before == NULL || is_above(entry, place->before))
        return false;
    snprintf(why, room, "entry %zu (%s), at offset %zu: not above the entry before it", place->entry, kind->name, place->at);
    return true;
}

bool explain_book(const uint8_t *bytes, size_t len, char *why, size_t room)
{
    struct place place = {1, 0, NULL};
    if (len > TUULVESKI_BOOK_MOST) {
        snprintf(why, room, "more than %d bytes", TUULVESKI_BOOK_MOST);
        return true;
    }
    while (place.at < len) {
        const uint8_t *entry = bytes + place.at;
        if (explain_entry(entry, len - place.at, &place, why, room))
            return true;
        place = (struct place){place.entry + 1, place.at + entry_length(&BOOK_KINDS[entry[0]]), entry};
    }
    return false;
}
