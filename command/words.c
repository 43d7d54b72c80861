#include "found.h"
#include "shape.h"
#include "telling.h"
#include "tuulveski_words.h"

#include <stdio.h>
#include <string.h>

/* A line about the file, after its name. */
static void put_line(const char *name, struct text *line)
{
    fputs(name, stdout);
    fwrite(line->at, 1, line->len, stdout);
    fputc('\n', stdout);
}

static void add_position(struct text *line, size_t number, size_t column)
{
    add(line, ":");
    add_number(line, number);
    add(line, ":");
    add_number(line, column);
    add(line, ": ");
}

static void put_finding(const char *name, const struct found *found)
{
    struct text line;
    line.len = 0;
    add_position(&line, found->finding.line, found->column);
    add(&line, tuulveski_record_type(found->record));
    add(&line, " ");
    add_number(&line, found->finding.field);
    add(&line, " ");
    add(&line, tuulveski_field_name(found->record, found->finding.field));
    add(&line, " ");
    add_quoted(&line, found->text.at, found->text.len);
    add(&line, ": ");
    add_bytes(&line, (const uint8_t *)found->message.at, found->message.len);
    add(&line, " (rule ");
    add_number(&line, found->finding.rule);
    add(&line, ")");
    put_line(name, &line);
}

static void put_findings(const struct told *told, const char *name)
{
    const struct verdict *verdict = told->verdict;
    struct setting setting;
    struct found found;
    start_findings(&setting, told->terms->today, &told->terms->book, told->file);
    for (size_t i = 0; i < verdict->answer.findings; i++) {
        read_finding(&setting, tuulveski_finding_at(verdict->findings.at, i), &found);
        put_finding(name, &found);
    }
}

static void put_fault(const struct told *told, const char *name)
{
    struct fault fault;
    struct text line;
    explain_shape(told->file, &told->verdict->answer, &fault);
    line.len = 0;
    add_position(&line, told->verdict->answer.line, fault.column);
    add_bytes(&line, (const uint8_t *)fault.message.at, fault.message.len);
    put_line(name, &line);
}

static void add_accepted(struct text *line, const tuulveski_answer *answer)
{
    add(line, ": accepted: ");
    add_count(line, answer->added, "event");
    add(line, " added, ");
    add_grouped(line, answer->changed);
    add(line, " changed, ");
    add_grouped(line, answer->deleted);
    add(line, " deleted, ");
    add_count(line, answer->not_immunized, "not-immunized record");
}

static void add_full(struct text *line, const struct told *told)
{
    size_t missing = told->verdict->missing;
    if (missing == 0) {
        add(line, ": refused: more events would be live than a ledger can hold, ");
        add_grouped(line, TUULVESKI_SLOTS_MOST);
        return;
    }
    add(line, ": refused: the ledger is full: ");
    add_count(line, missing, "more slot");
    add(line, missing == 1 ? " is needed" : " are needed");
}

/* The last line about a file. */
static void add_outcome(struct text *line, const struct told *told)
{
    const tuulveski_answer *answer = &told->verdict->answer;
    switch (answer->answer) {
    case TUULVESKI_ACCEPTED:
        add_accepted(line, answer);
        break;
    case TUULVESKI_SHAPE:
        add(line, ": refused: a fault of shape at line ");
        add_number(line, answer->line);
        add(line, "; no rule was checked");
        break;
    case TUULVESKI_FINDINGS:
        add(line, ": refused: ");
        add_count(line, answer->findings, "finding");
        break;
    case TUULVESKI_FULL:
        add_full(line, told);
        break;
    case TUULVESKI_LONG:
        add(line, ": refused: ");
        add(line, tuulveski_answer_text(answer->answer));
        break;
    default:
        add(line, ": not checked: ");
        add(line, tuulveski_answer_text(answer->answer));
        break;
    }
}

/* A word for a shell, in quotes where it has more than letters, digits and what paths are made of. */
static void put_shell_word(const char *word)
{
    static const char PLAIN[] = "abcdefghijklmnopqrstuvwxyzABCDEFGHIJKLMNOPQRSTUVWXYZ0123456789/._+-";
    if (word[strspn(word, PLAIN)] == '\0' && word[0] != '\0') {
        fputs(word, stdout);
        return;
    }
    fputc('\'', stdout);
    for (; *word != '\0'; word++)
        if (*word == '\'')
            fputs("'\\''", stdout);
        else
            fputc(*word, stdout);
    fputc('\'', stdout);
}

/* The command that makes room in a full ledger. */
static void put_grow(const struct told *told, const char *ledger)
{
    struct text line;
    line.len = 0;
    fputs(ledger[0] == '-' ? ": tuulveski ledger grow ./" : ": tuulveski ledger grow ", stdout);
    put_shell_word(ledger);
    add(&line, " ");
    add_number(&line, told->verdict->missing);
    fwrite(line.at, 1, line.len, stdout);
}

void tell_words(const struct told *told, const struct names *names)
{
    const struct verdict *verdict = told->verdict;
    struct text line;
    if (verdict->answer.answer == TUULVESKI_FINDINGS)
        put_findings(told, names->file);
    if (verdict->answer.answer == TUULVESKI_SHAPE)
        put_fault(told, names->file);
    line.len = 0;
    add_outcome(&line, told);
    fputs(names->file, stdout);
    fwrite(line.at, 1, line.len, stdout);
    if (verdict->missing > 0 && strcmp(told->ledger, "-") != 0)
        put_grow(told, names->ledger);
    fputc('\n', stdout);
}
