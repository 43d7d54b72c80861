/* The check of the library, on a stack of its own, and all that is to be told of its answer. */
#ifndef JUDGE_H
#define JUDGE_H

#include "bytes.h"
#include "tuulveski.h"

enum { VERDICT_WHY = 512 };

/* What a file is judged by. */
struct terms {
    uint32_t today;
    const char *book_name;
    struct bytes book;
};

struct verdict {
    tuulveski_answer answer;
    struct bytes findings; /* all of them, at answer FINDINGS */
    size_t missing;        /* at answer FULL, how many slots there are too few; 0 where no ledger has so many */
    char why[VERDICT_WHY];    /* at answers BOOK and LEDGER, what is malformed; perhaps "" */
};

/* Judges a file. At answer 0 the ledger is the new one, at all others it is as it was. The findings are in memory of their own, all of
 * them. False, and said why, where there is no memory or no thread. */
bool judge(uint32_t today, const struct bytes *file, const struct bytes *book, struct bytes *ledger, struct bytes *findings,
           tuulveski_answer *answer);

/* The same, with what is to be told beside the answer. */
bool reach_verdict(const struct terms *terms, const struct bytes *file, struct bytes *ledger, struct verdict *verdict);

void free_verdict(struct verdict *verdict);

#endif
