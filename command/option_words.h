/* The words of a command that takes options: --book BOOK, --book=BOOK, -b BOOK, -bBOOK, and words that are none. */
#ifndef OPTION_WORDS_H
#define OPTION_WORDS_H

#include <stdbool.h>
#include <stddef.h>

enum { OPTIONS_MOST = 8 };

struct named_option {
    char letter;
    const char *name;
    bool (*take)(void *into, const char *value); /* false, and said why, where it does not take the value */
};

/* The options of a command, OPTIONS_MOST at most. */
struct option_list {
    const struct named_option *at;
    size_t count;
};

/* The words that are no options. */
struct operands {
    char **at;
    int count;
};

enum parsed { PARSED, ASKED_FOR_HELP, NOT_UNDERSTOOD };

/* Reads the words after a command's name, which is words[0]. The words that are no options are moved to the front, after the name. What is
 * not understood is said. */
enum parsed read_words(int count, char **words, const struct option_list *list, void *into, struct operands *operands);

/* Whether a name is `-`: standard input or output. */
bool is_standard(const char *name);

#endif
