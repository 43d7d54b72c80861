/* The lines of a text that is read word by word: the words are apart by blanks; lines that are empty or begin with # are passed over. */
#ifndef TEXT_LINES_H
#define TEXT_LINES_H

#include "bytes.h"

/* A line has no more words than these that anybody asks for. A quoted word takes at most so much room. */
enum { WORDS_KEPT = 5, QUOTED_ROOM = 320 };

struct word {
    const uint8_t *at;
    size_t len;
};

struct text_line {
    size_t number; /* from 1 */
    size_t count;  /* all of its words; the first WORDS_KEPT follow */
    struct word words[WORDS_KEPT];
};

struct text_lines {
    const struct bytes *text;
    size_t start, number; /* of the line last read; 0 before the first */
};

/* The next line that has words and no # before them; false after the last. */
bool next_line(struct text_lines *lines, struct text_line *line);

/* Whether a line has so many words, apart from a comment after them. */
bool has_words(const struct text_line *line, size_t count);

/* A word in quotes, as a message shows it: bytes that are not printable as \xff, and of a long one the start alone. */
const char *quote(const struct word *word, char quoted[QUOTED_ROOM]);

#endif
