/* The findings of a file, in its order and in one pass over it, each with its place and its words. */
#ifndef FOUND_H
#define FOUND_H

#include "remedy.h"

struct found {
    tuulveski_finding finding;
    uint32_t record;
    size_t column; /* of the field's text in its line, in bytes, from 1 */
    struct span text;
    struct text message;
};

/* Before the first one. */
void start_findings(struct setting *setting, uint32_t today, const struct bytes *book, const struct bytes *file);

/* The finding, which comes after those that were asked for before, with all that is told of it. */
void read_finding(struct setting *setting, tuulveski_finding finding, struct found *found);

#endif
