/* The options of `check` and `submit`. */
#ifndef OPTIONS_H
#define OPTIONS_H

#include "option_words.h"
#include "telling.h"

enum { WAIT_MOST = 86400, WAIT_USUALLY = 60 };

struct options {
    uint32_t today;
    const char *book, *ledger;
    enum format format;
    bool creates;   /* --create: where there is no ledger, one of so many slots is made */
    uint32_t slots;
    uint32_t wait; /* for another process that holds the ledger, in seconds */
    struct operands files; /* 1 or more */
};

/* Reads the words after a command's name, which is words[0]. The names of the files are moved to the front of the words. What is not
 * understood is said. */
enum parsed read_options(int count, char **words, bool is_submit, struct options *options);

#endif
