#include "entries.h"

#include "say.h"
#include "shown.h"

#include <stdio.h>
#include <stdlib.h>
#include <string.h>

enum { FIRST_ENTRIES = 1024 };

static int compare(const void *left, const void *right)
{
    const struct entry *a = *(struct entry *const *)left, *b = *(struct entry *const *)right;
    int order = memcmp(a->bytes, b->bytes, a->key_len < b->key_len ? a->key_len : b->key_len);
    if (order == 0 && a->key_len != b->key_len)
        return a->key_len < b->key_len ? -1 : 1;
    if (order == 0 && a->line != b->line)
        return a->line < b->line ? -1 : 1;
    return order;
}

static bool is_same_key(const struct entry *a, const struct entry *b)
{
    return a->key_len == b->key_len && memcmp(a->bytes, b->bytes, a->key_len) == 0;
}

static bool make_room(struct entries *entries, size_t *room)
{
    if (entries->count < *room)
        return true;
    size_t more = *room == 0 ? FIRST_ENTRIES : 2 * *room;
    struct entry *all = realloc(entries->all, more * sizeof *all);
    if (all == NULL)
        return false;
    entries->all = all;
    *room = more;
    return true;
}

static bool read_all(struct entries *entries)
{
    struct text_lines lines = {.text = entries->text};
    struct text_line line;
    char fault[FAULT_ROOM];
    size_t room = 0;
    while (next_line(&lines, &line)) {
        if (!make_room(entries, &room))
            return false;
        struct entry *entry = &entries->all[entries->count];
        *entry = (struct entry){.line = line.number, .first_line = line.number};
        if (entries->form->read(&line, entry, fault))
            entries->count++;
        else
            entries->faults++;
    }
    return true;
}

static bool put_in_order(struct entries *entries)
{
    entries->ascending = malloc((entries->count + 1) * sizeof *entries->ascending);
    if (entries->ascending == NULL)
        return false;
    for (size_t i = 0; i < entries->count; i++)
        entries->ascending[i] = &entries->all[i];
    qsort(entries->ascending, entries->count, sizeof *entries->ascending, compare);
    return true;
}

static void find_doubles(struct entries *entries)
{
    for (size_t i = 1; i < entries->count; i++) {
        struct entry *before = entries->ascending[i - 1], *entry = entries->ascending[i];
        if (is_same_key(before, entry)) {
            entry->first_line = before->first_line;
            entries->faults++;
        }
    }
}

bool read_entries(const struct bytes *text, const struct entry_form *form, struct entries *entries)
{
    *entries = (struct entries){.form = form, .text = text};
    if (!read_all(entries) || !put_in_order(entries)) {
        say("there is not enough memory");
        free_entries(entries);
        return false;
    }
    find_doubles(entries);
    return true;
}

void mark_fault(struct entries *entries, struct entry *entry, const char *fault)
{
    if (entry->fault == NULL && entry->first_line == entry->line)
        entries->faults++;
    entry->fault = fault;
}

/* Whether something is to be said against an entry that could be read, and what. */
static bool is_faulty(const struct entries *entries, const struct entry *entry, char fault[FAULT_ROOM])
{
    if (entry->first_line != entry->line)
        snprintf(fault, FAULT_ROOM, "%s as on line %zu", entries->form->same, entry->first_line);
    else if (entry->fault != NULL)
        snprintf(fault, FAULT_ROOM, "%s", entry->fault);
    else
        return false;
    return true;
}

/* The lines are gone through a second time, so that a text need not be kept for each fault. */
void tell_faults(const struct entries *entries, const char *name, size_t most)
{
    struct text_lines lines = {.text = entries->text};
    struct text_line line;
    struct entry again;
    char fault[FAULT_ROOM];
    const struct entry *entry = entries->all;
    char *in_memory = show_name(name);
    const char *shown = in_memory == NULL ? "the text" : in_memory;
    for (size_t told = 0; told < most && next_line(&lines, &line);) {
        bool faulty = !entries->form->read(&line, &again, fault) || is_faulty(entries, entry++, fault);
        if (faulty) {
            fprintf(stderr, "%s:%zu: %s\n", shown, line.number, fault);
            told++;
        }
    }
    if (entries->faults > most)
        fprintf(stderr, "%s: and %zu more faulty lines\n", shown, entries->faults - most);
    free(in_memory);
}

void free_entries(struct entries *entries)
{
    free(entries->all);
    free(entries->ascending);
    entries->all = NULL;
    entries->ascending = NULL;
    entries->count = 0;
}

bool read_text(const char *path, struct bytes *text)
{
    if (!read_file(path, TEXT_MOST, text))
        return false;
    if (text->len <= TEXT_MOST)
        return true;
    say("%s: has more than %d bytes", text_name(path), TEXT_MOST);
    free_bytes(text);
    return false;
}

const char *text_name(const char *path)
{
    return strcmp(path, "-") == 0 ? "standard input" : path;
}
