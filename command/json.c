/* One object a line for each file. Every name and text is valid JSON, whatever bytes it has: what is not UTF-8 becomes U+FFFD. */
#include "found.h"
#include "shape.h"
#include "telling.h"
#include "tuulveski_words.h"
#include "utf8.h"

#include <stdio.h>
#include <string.h>

enum { REPLACEMENT = 0xFFFD };

static void put_escaped(uint32_t code)
{
    static const char HEX[] = "0123456789abcdef";
    const char escape[] = {'\\', 'u', HEX[code >> 12 & 0xF], HEX[code >> 8 & 0xF], HEX[code >> 4 & 0xF], HEX[code & 0xF]};
    fwrite(escape, 1, sizeof escape, stdout);
}

static void put_string(const uint8_t *at, size_t len)
{
    size_t plain = 0; /* from here on nothing is written yet, and nothing is to be escaped */
    fputc('"', stdout);
    for (size_t i = 0; i < len;) {
        uint32_t code = REPLACEMENT;
        size_t length = character_at(at + i, len - i, &code);
        if (length > 0 && is_harmless(code) && code != '"' && code != '\\') {
            i += length;
            continue;
        }
        fwrite(at + plain, 1, i - plain, stdout);
        put_escaped(code);
        i += length > 0 ? length : 1;
        plain = i;
    }
    fwrite(at + plain, 1, len - plain, stdout);
    fputc('"', stdout);
}

/* `before` has the mark that parts it from what stands before, the name and the colon. */
static void put_text(const char *before, const uint8_t *at, size_t len)
{
    fputs(before, stdout);
    put_string(at, len);
}

static void put_words(const char *before, const char *words)
{
    put_text(before, (const uint8_t *)words, strlen(words));
}

static void put_number(const char *before, size_t number)
{
    struct text text;
    text.len = 0;
    add(&text, before);
    add_number(&text, number);
    fwrite(text.at, 1, text.len, stdout);
}

static void put_found(const struct found *found)
{
    put_number("{\"line\":", found->finding.line);
    put_number(",\"column\":", found->column);
    put_words(",\"record\":", tuulveski_record_type(found->record));
    put_number(",\"field\":", found->finding.field);
    put_words(",\"name\":", tuulveski_field_name(found->record, found->finding.field));
    put_text(",\"text\":", found->text.at, found->text.len);
    put_number(",\"rule\":", found->finding.rule);
    put_text(",\"message\":", (const uint8_t *)found->message.at, found->message.len);
    fputc('}', stdout);
}

static void put_findings(const struct told *told)
{
    struct setting setting;
    struct found found;
    if (told->verdict->answer.findings > 0)
        start_findings(&setting, told->terms->today, &told->terms->book, told->file);
    fputs(",\"found\":[", stdout);
    for (size_t i = 0; i < told->verdict->answer.findings; i++) {
        if (i > 0)
            fputc(',', stdout);
        read_finding(&setting, tuulveski_finding_at(told->verdict->findings.at, i), &found);
        put_found(&found);
    }
    fputc(']', stdout);
}

static void put_fault(const struct told *told)
{
    struct fault fault;
    explain_shape(told->file, &told->verdict->answer, &fault);
    put_number(",\"column\":", fault.column);
    put_text(",\"message\":", (const uint8_t *)fault.message.at, fault.message.len);
}

static void put_missing(size_t missing)
{
    if (missing > 0)
        put_number(",\"missing_slots\":", missing);
    else
        fputs(",\"missing_slots\":null", stdout);
}

void tell_json(const struct told *told)
{
    const tuulveski_answer *answer = &told->verdict->answer;
    put_words("{\"file\":", told->name);
    put_number(",\"answer\":", answer->answer);
    put_words(",\"name\":", tuulveski_answer_name(answer->answer));
    put_words(",\"text\":", tuulveski_answer_text(answer->answer));
    put_number(",\"line\":", answer->line);
    put_number(",\"cause\":", answer->cause);
    put_number(",\"findings\":", answer->findings);
    put_number(",\"added\":", answer->added);
    put_number(",\"changed\":", answer->changed);
    put_number(",\"deleted\":", answer->deleted);
    put_number(",\"not_immunized\":", answer->not_immunized);
    if (answer->answer == TUULVESKI_SHAPE)
        put_fault(told);
    if (answer->answer == TUULVESKI_FULL)
        put_missing(told->verdict->missing);
    put_findings(told);
    fputs("}\n", stdout);
}
