/* A file of the right shape, gone through once from line to line, with what stands above the line. */
#ifndef WALK_H
#define WALK_H

#include "bytes.h"
#include "tuulveski.h"

struct walk {
    const struct bytes *file;
    tuulveski_line_at here;
    uint32_t record;        /* of the line; 0 where it has no known type */
    size_t patient;         /* where the last IP starts */
    tuulveski_line_at head; /* the last II or IN: that of an IE or IA is the one above it */
    uint32_t head_record;
    tuulveski_line_at first; /* the first II of the run that the last II is in, all with its ULI, type, date and vaccine */
};

/* A text within a file. */
struct span {
    const uint8_t *at;
    size_t len;
};

/* Stands on the first line. */
void start_walk(struct walk *walk, const struct bytes *file);

/* Goes on to a line; it never goes back. */
void walk_to(struct walk *walk, size_t line);

/* Field `field` of the line that starts at `start`; empty where there is none. */
struct span text_of(const struct walk *walk, size_t start, size_t field);

#endif
