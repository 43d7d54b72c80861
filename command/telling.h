/* How answers are told on standard output: in words, in numbers or in JSON. */
#ifndef TELLING_H
#define TELLING_H

#include "judge.h"
#include "tuulveski_words.h"

enum format { WORDS, NUMBERS, JSON };

/* A file that was judged. */
struct told {
    const char *name, *ledger; /* as they were given */
    const struct terms *terms;
    const struct bytes *file;
    const struct verdict *verdict;
};

/* How a run tells its answers. */
struct telling {
    enum format format;
    bool said[TUULVESKI_ANSWERS]; /* by answer: what could not be done is said once, however many files it keeps from being checked */
};

/* Writes all of it out. False, and said why, where it cannot be written; the answer counts all the same. */
bool tell(struct telling *telling, const struct told *told);

/* The exit status that an answer alone makes. */
int status_of(const tuulveski_answer *answer);

/* Names as shown.h has them. */
struct names {
    char *file, *ledger;
};

/* The three formats. They write to standard output, whose error sign tells whether all of it could be written. */
void tell_words(const struct told *told, const struct names *names);
void tell_numbers(const struct told *told);
void tell_json(const struct told *told);

#endif
