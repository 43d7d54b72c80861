/* tuulveski check: what would be said of files, one after the other, without writing anything. */
#include "commands.h"
#include "options.h"
#include "say.h"
#include "usage.h"

enum { LEDGER_BYTES_MOST = TUULVESKI_SLOTS_MOST * TUULVESKI_SLOT_BYTES };

/* What all files are checked with; the ledger is the one that the files so far leave. */
struct check {
    const struct options *options;
    struct terms terms;
    struct bytes ledger;
    struct telling telling;
};

static bool judge_and_tell(struct check *check, const char *name, const struct bytes *file, int *status)
{
    struct verdict verdict;
    struct told told = {name, check->options->ledger, &check->terms, file, &verdict};
    if (!reach_verdict(&check->terms, file, &check->ledger, &verdict))
        return false;
    *status = status_of(&verdict.answer);
    bool told_all = tell(&check->telling, &told);
    free_verdict(&verdict);
    return told_all;
}

/* False where it is of no use to go on; a file that cannot be read does not keep others from being checked. */
static bool check_file(struct check *check, const char *name, int *status)
{
    struct bytes file;
    *status = FAILED;
    if (!read_file(name, TUULVESKI_FILE_MOST, &file))
        return true;
    bool goes_on = judge_and_tell(check, name, &file, status);
    free_bytes(&file);
    return goes_on;
}

static int check_files(struct check *check)
{
    int highest = DONE;
    for (int i = 0; i < check->options->files.count; i++) {
        int status;
        if (!check_file(check, check->options->files.at[i], &status))
            return FAILED;
        if (status > highest)
            highest = status;
    }
    return highest;
}

static int check_with(const struct options *options)
{
    struct check check = {
        .options = options,
        .terms = {.today = options->today, .book_name = options->book},
        .telling = {.format = options->format},
    };
    int status = FAILED;
    if (read_file(options->book, TUULVESKI_BOOK_MOST, &check.terms.book)) {
        if (read_file(options->ledger, LEDGER_BYTES_MOST, &check.ledger)) {
            status = check_files(&check);
            free_bytes(&check.ledger);
        }
        free_bytes(&check.terms.book);
    }
    return status;
}

int command_check(int count, char **words)
{
    struct options options;
    switch (read_options(count, words, false, &options)) {
    case PARSED:
        return check_with(&options);
    case ASKED_FOR_HELP:
        return give_help(USAGE_OF_CHECK);
    default:
        return hint_at_help(words[0]);
    }
}
