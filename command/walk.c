#include "walk.h"

#include "fields.h"
#include "tuulveski_words.h"

#include <string.h>

struct span text_of(const struct walk *walk, size_t start, size_t field)
{
    tuulveski_field_at at = tuulveski_field_from(walk->file->at, walk->file->len, start, field);
    struct span span = {walk->file->at + at.start, at.length};
    return span;
}

/* Whether two II have the same ULI, type, date and vaccine. */
static bool is_same_event(const struct walk *walk, size_t one, size_t other)
{
    static const size_t NAMED_BY[] = {ULI, II_TYPE, II_DATE, II_VACCINE};
    for (size_t i = 0; i < sizeof NAMED_BY / sizeof *NAMED_BY; i++) {
        struct span a = text_of(walk, one, NAMED_BY[i]), b = text_of(walk, other, NAMED_BY[i]);
        if (a.len != b.len || memcmp(a.at, b.at, a.len) != 0)
            return false;
    }
    return true;
}

static void meet(struct walk *walk)
{
    struct span type = text_of(walk, walk->here.start, RECORD_TYPE);
    walk->record = tuulveski_record_of(type.at, type.len);
    if (walk->record == TUULVESKI_IP) {
        walk->patient = walk->here.start;
        walk->head_record = 0;
    }
    if (walk->record == TUULVESKI_II && !(walk->head_record == TUULVESKI_II && is_same_event(walk, walk->head.start, walk->here.start)))
        walk->first = walk->here;
    if (walk->record == TUULVESKI_II || walk->record == TUULVESKI_IN) {
        walk->head = walk->here;
        walk->head_record = walk->record;
    }
}

void start_walk(struct walk *walk, const struct bytes *file)
{
    walk->file = file;
    walk->here = TUULVESKI_FIRST_LINE;
    walk->patient = 0;
    walk->head = walk->first = walk->here;
    walk->head_record = 0;
    meet(walk);
}

void walk_to(struct walk *walk, size_t line)
{
    while (walk->here.line < line && walk->here.start < walk->file->len) {
        walk->here = tuulveski_line_from(walk->file->at, walk->file->len, walk->here.start, walk->here.line, walk->here.line + 1);
        meet(walk);
    }
}
