/* A text of entries, one a line: read as a whole, put in order, and every faulty line told. */
#ifndef ENTRIES_H
#define ENTRIES_H

#include "bytes.h"
#include "text_lines.h"

/* The longest entry is a pair of two codes in a book: kind, code, code, end. */
enum { ENTRY_MOST = 1 + 20 + 20 + 8, FAULT_ROOM = 2 * QUOTED_ROOM };

/* A text of more bytes is not read. */
enum { TEXT_MOST = 16 * 1024 * 1024 };

struct entry {
    size_t line;
    size_t first_line; /* where the same key stands for the first time; its own line if that is here */
    const char *fault; /* what else is wrong with it; null if nothing is */
    size_t key_len, len;
    uint8_t bytes[ENTRY_MOST]; /* first the key */
};

/* What a line must be. */
struct entry_form {
    const char *same; /* what is the same in two entries of one key, in words */
    bool (*read)(const struct text_line *line, struct entry *entry, char fault[FAULT_ROOM]);
};

struct entries {
    const struct entry_form *form;
    const struct bytes *text;
    struct entry *all; /* those that could be read, in the order of the text */
    size_t count;
    struct entry **ascending; /* the same by their keys, and with one key in the order of the text */
    size_t faults;            /* how many lines are faulty */
};

/* False, and said why, where there is no memory for them. */
bool read_entries(const struct bytes *text, const struct entry_form *form, struct entries *entries);

void mark_fault(struct entries *entries, struct entry *entry, const char *fault);

/* NAME:LINE: FAULT on standard error, for the first `most` faulty lines, and how many more there are. */
void tell_faults(const struct entries *entries, const char *name, size_t most);

void free_entries(struct entries *entries);

/* The text of a path, `-` being standard input. False, and said why, where it cannot be read or is longer than TEXT_MOST. */
bool read_text(const char *path, struct bytes *text);

/* The path of a text as messages name it. */
const char *text_name(const char *path);

#endif
