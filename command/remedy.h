/* What is wrong by a finding, in words, and what would be right. */
#ifndef REMEDY_H
#define REMEDY_H

#include "book_days.h"
#include "text.h"
#include "walk.h"

/* A file with findings, and what it was judged by. */
struct setting {
    uint32_t today;
    struct codes codes;
    struct walk walk;
};

/* The walk stands on the finding's line. */
void add_message(struct text *message, const struct setting *setting, const tuulveski_finding *finding);

/* Rules 4, 5 and 11, which are about codes: the table that is meant, and the days of the entry. */
void add_unknown_code(struct text *message, const struct setting *setting, const tuulveski_finding *finding);
void add_code_days(struct text *message, const struct setting *setting, const tuulveski_finding *finding);
void add_pair_days(struct text *message, const struct setting *setting, const tuulveski_finding *finding);

#endif
