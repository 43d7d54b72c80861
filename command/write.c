/* tuulveski write: a submission from chart records, whole or not at all. What is written is the library's; a refusal is explained here. */
#include "actions.h"
#include "chart_form.h"
#include "commands.h"
#include "fields.h"
#include "option_words.h"
#include "say.h"
#include "stack.h"
#include "tuulveski.h"
#include "tuulveski_words.h"
#include "usage.h"
#include "whole_file.h"

#include <stdio.h>
#include <stdlib.h>
#include <string.h>

/* More than any chart has that makes a file of 5,000,000 bytes: what shrinks most is an II with an IE, from 1,727 bytes to 35. */
enum { CHART_MOST = 250000000 };
/* The file says who was immunized with what, as the ledger does. The check takes record numbers of up to five digits. */
enum { FILE_MODE = 0600, RECORDS_MOST = 99999 };
enum { PREFIX_MOST = 3, BATCH_MOST = 10, RULE_OF_FORMS = 2 };

struct task {
    const char *prefix, *batch, *output; /* no output, or -, is standard output */
    struct operands charts;              /* one */
};

/* A call of the library. */
struct writing {
    const struct task *task;
    const struct bytes *chart;
    struct bytes *file;
    tuulveski_written written;
};

static bool take_prefix(void *into, const char *value)
{
    struct task *task = into;
    task->prefix = value;
    return true;
}

static bool take_batch(void *into, const char *value)
{
    struct task *task = into;
    task->batch = value;
    return true;
}

static bool take_output(void *into, const char *value)
{
    struct task *task = into;
    task->output = value;
    return true;
}

static bool is_complete(const struct task *task)
{
    if (task->prefix == NULL || task->batch == NULL)
        say("write needs --%s", task->prefix == NULL ? "prefix" : "batch");
    else if (task->charts.count != 1)
        say(task->charts.count == 0 ? "write needs the name of a chart" : "write takes one chart at a time");
    else
        return true;
    return false;
}

static enum parsed read_task(int count, char **words, struct task *task)
{
    static const struct named_option OPTIONS[] = {{'p', "prefix", take_prefix}, {'n', "batch", take_batch}, {'o', "output", take_output}};
    static const struct option_list LIST = {OPTIONS, sizeof OPTIONS / sizeof *OPTIONS};
    *task = (struct task){.output = "-"};
    enum parsed parsed = read_words(count, words, &LIST, task, &task->charts);
    return parsed == PARSED && !is_complete(task) ? NOT_UNDERSTOOD : parsed;
}

static void *run(void *with)
{
    struct writing *writing = with;
    const struct task *task = writing->task;
    writing->written = tuulveski_write((const uint8_t *)task->prefix, strlen(task->prefix), (const uint8_t *)task->batch,
                                       strlen(task->batch), writing->chart->at, writing->chart->len, writing->file->at,
                                       writing->file->len);
    return NULL;
}

/* Whether a text of the header is of its form, 1 to so many letters or digits; else what is wrong is added. */
static bool explain_header(struct text *message, uint32_t field, const char *text, size_t most)
{
    static const char LETTERS_AND_DIGITS[] = "ABCDEFGHIJKLMNOPQRSTUVWXYZabcdefghijklmnopqrstuvwxyz0123456789";
    size_t len = strlen(text);
    if (len >= 1 && len <= most && strspn(text, LETTERS_AND_DIGITS) == len)
        return false;
    add(message, tuulveski_field_name(TUULVESKI_IH, field));
    add(message, " ");
    add_quoted(message, (const uint8_t *)text, len);
    add(message, ": ");
    add(message, tuulveski_rule_text(RULE_OF_FORMS));
    add(message, "; ");
    add(message, tuulveski_field_form(TUULVESKI_IH, field));
    add(message, " would be right");
    return true;
}

/* Why the library refused it, if that can be found. */
static void explain(struct text *message, const struct writing *writing)
{
    const struct task *task = writing->task;
    bool explained = false;
    if (writing->written.answer == TUULVESKI_RECORD)
        explained = explain_header(message, IH_PREFIX, task->prefix, PREFIX_MOST) ||
                    explain_header(message, IH_BATCH, task->batch, BATCH_MOST) || explain_chart(writing->chart, message);
    if (writing->written.answer == TUULVESKI_ROOM)
        add(message, "the finished file would be longer than 5,000,000 bytes");
    else if (!explained)
        add(message, tuulveski_answer_text(writing->written.answer));
}

static int refuse(const struct writing *writing)
{
    struct text message;
    message.len = 0;
    explain(&message, writing);
    say("%s: refused: %.*s; nothing was written", writing->task->charts.at[0], (int)message.len, message.at);
    return REFUSED;
}

static bool put_file(const char *path, const uint8_t *bytes, size_t len)
{
    char why[WHOLE_WHY];
    bool exists;
    if (is_standard(path))
        return finish_output(fwrite(bytes, 1, len, stdout) == len);
    if (whole_create(path, FILE_MODE, bytes, len, &exists, why))
        return true;
    if (exists)
        say("%s: is there already; nothing was written", path);
    else
        say("%s: %s", path, why);
    return false;
}

/* What is in the file goes to standard error, since the file itself may go to standard output. */
static void tell_counts(const struct writing *writing)
{
    struct chart_counts counts = count_chart(writing->chart);
    struct text line;
    line.len = 0;
    add_count(&line, counts.patients, "patient");
    add(&line, ", ");
    add_count(&line, counts.immunizations, "immunization");
    add(&line, ", ");
    add_count(&line, counts.not_immunized, "not-immunized record");
    fprintf(stderr, "%.*s\n", (int)line.len, line.at);
    if (counts.records > RECORDS_MOST)
        say("%s: has %zu records, and the check takes record numbers up to %d: it will refuse the file (rule 2)",
            writing->task->charts.at[0], counts.records, RECORDS_MOST);
}

static int write_out(const struct writing *writing)
{
    if (!put_file(writing->task->output, writing->file->at, writing->written.length))
        return FAILED;
    tell_counts(writing);
    return DONE;
}

static int write_by_answer(struct writing *writing)
{
    if (!run_on_own_stack(run, writing))
        return FAILED;
    switch (writing->written.answer) {
    case TUULVESKI_WRITTEN:
        return write_out(writing);
    case TUULVESKI_RECORD:
    case TUULVESKI_ROOM:
        return refuse(writing);
    default:
        say("%s: the library gave answer %lu, which is none of writing", writing->task->charts.at[0], (unsigned long)writing->written.answer);
        return FAILED;
    }
}

static int write_chart(const struct task *task, const struct bytes *chart)
{
    struct bytes file = {malloc(TUULVESKI_FILE_MOST), TUULVESKI_FILE_MOST};
    struct writing writing = {.task = task, .chart = chart, .file = &file};
    if (file.at == NULL) {
        say("there is not enough memory for the file");
        return FAILED;
    }
    int status = write_by_answer(&writing);
    free_bytes(&file);
    return status;
}

static int write_with(const struct task *task)
{
    struct bytes chart;
    int status = REFUSED;
    if (!read_file(task->charts.at[0], CHART_MOST, &chart))
        return FAILED;
    if (chart.len <= CHART_MOST)
        status = write_chart(task, &chart);
    else
        say("%s: refused: it has more than %d bytes, and no such chart makes a file of %d bytes or fewer; nothing was written",
            task->charts.at[0], CHART_MOST, TUULVESKI_FILE_MOST);
    free_bytes(&chart);
    return status;
}

int command_write(int count, char **words)
{
    struct task task;
    switch (read_task(count, words, &task)) {
    case PARSED:
        return write_with(&task);
    case ASKED_FOR_HELP:
        return give_help(USAGE_OF_WRITE);
    default:
        return hint_at_help(words[0]);
    }
}
