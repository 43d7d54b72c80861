#include "text_lines.h"

#include <stdio.h>
#include <string.h>

enum { QUOTED_BYTES = 60, FIRST_PRINTABLE = 32, LAST_PRINTABLE = 126 };

static bool is_blank(uint8_t byte)
{
    return byte == ' ' || (byte >= '\t' && byte <= '\r');
}

static size_t end_of_line(const struct bytes *text, size_t start)
{
    const uint8_t *end = memchr(text->at + start, '\n', text->len - start);
    return end == NULL ? text->len : (size_t)(end - text->at);
}

static void split(const uint8_t *at, const uint8_t *end, struct text_line *line)
{
    line->count = 0;
    for (;;) {
        while (at < end && is_blank(*at))
            at++;
        if (at == end)
            return;
        const uint8_t *start = at;
        while (at < end && !is_blank(*at))
            at++;
        if (line->count < WORDS_KEPT)
            line->words[line->count] = (struct word){start, (size_t)(at - start)};
        line->count++;
    }
}

bool next_line(struct text_lines *lines, struct text_line *line)
{
    while (lines->start < lines->text->len) {
        size_t end = end_of_line(lines->text, lines->start);
        split(lines->text->at + lines->start, lines->text->at + end, line);
        lines->start = end == lines->text->len ? end : end + 1;
        line->number = ++lines->number;
        if (line->count > 0 && line->words[0].at[0] != '#')
            return true;
    }
    return false;
}

bool has_words(const struct text_line *line, size_t count)
{
    return line->count == count || (line->count > count && line->words[count].at[0] == '#');
}

const char *quote(const struct word *word, char quoted[QUOTED_ROOM])
{
    char *to = quoted;
    *to++ = '\'';
    for (size_t i = 0; i < word->len && i < QUOTED_BYTES; i++) {
        uint8_t byte = word->at[i];
        if (byte < FIRST_PRINTABLE || byte > LAST_PRINTABLE)
            to += sprintf(to, "\\x%02x", (unsigned)byte);
        else {
            if (byte == '\'' || byte == '\\')
                *to++ = '\\';
            *to++ = (char)byte;
        }
    }
    strcpy(to, word->len > QUOTED_BYTES ? "...'" : "'");
    return quoted;
}
