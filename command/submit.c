/* tuulveski submit: checks files one after the other, and keeps the ledger of each that is accepted before it says so. */
#include "commands.h"
#include "ledger_file.h"
#include "options.h"
#include "say.h"
#include "usage.h"

#include <stdlib.h>

struct submit {
    const struct options *options;
    struct terms terms;
    struct telling telling;
};

/* Makes a ledger of free slots; one that another process has made meanwhile serves as well. */
static bool create(const struct options *options)
{
    char why[LEDGER_WHY];
    bool exists = false;
    uint8_t *free_slots = calloc((size_t)options->slots + 1, TUULVESKI_SLOT_BYTES);
    if (free_slots == NULL) {
        say("there is not enough memory for a ledger");
        return false;
    }
    bool made = ledger_create(options->ledger, free_slots, (size_t)options->slots * TUULVESKI_SLOT_BYTES, &exists, why) || exists;
    if (!made)
        say("%s: %s", options->ledger, why);
    free(free_slots);
    return made;
}

static bool hold(const struct options *options, struct ledger_file *ledger)
{
    if (ledger_hold(ledger, options->ledger, options->wait))
        return true;
    if (ledger->missing && options->creates) {
        if (!create(options))
            return false;
        if (ledger_hold(ledger, options->ledger, options->wait))
            return true;
    }
    say("%s: %s", options->ledger, ledger->why);
    if (ledger->missing)
        say("to make one: tuulveski ledger new LEDGER SLOTS, or tuulveski submit --create SLOTS");
    return false;
}

/* A ledger that could not be flushed to disk in its folder has the file's events all the same. */
static void say_not_kept(const char *path, const struct ledger_file *ledger, const char *name)
{
    if (ledger->replaced)
        say("%s: %s; it has the events of %s", path, ledger->why, name);
    else
        say("%s: the ledger could not be kept: %s; nothing was altered", path, ledger->why);
}

/* Judges a file and keeps the ledger of an accepted one. The ledger is let go before anything is told: whoever reads what is told may be
 * slow. */
static bool judge_and_keep(const struct submit *submit, const char *name, const struct bytes *file, struct verdict *verdict)
{
    struct ledger_file ledger;
    if (!hold(submit->options, &ledger))
        return false;
    struct bytes slots = {ledger.bytes, ledger.len};
    if (!reach_verdict(&submit->terms, file, &slots, verdict)) {
        ledger_release(&ledger);
        return false;
    }
    if (verdict->answer.answer != TUULVESKI_ACCEPTED) {
        ledger_release(&ledger);
        return true;
    }
    if (ledger_keep(&ledger, slots.at, slots.len))
        return true;
    say_not_kept(submit->options->ledger, &ledger, name);
    free_verdict(verdict);
    return false;
}

static int submit_bytes(struct submit *submit, const char *name, const struct bytes *file)
{
    struct verdict verdict;
    struct told told = {name, submit->options->ledger, &submit->terms, file, &verdict};
    if (!judge_and_keep(submit, name, file, &verdict))
        return FAILED;
    int status = status_of(&verdict.answer);
    if (!tell(&submit->telling, &told)) {
        if (status == DONE)
            say("%s is accepted, and the ledger is kept", name);
        status = FAILED;
    }
    free_verdict(&verdict);
    return status;
}

static int submit_file(struct submit *submit, const char *name)
{
    struct bytes file;
    if (!read_file(name, TUULVESKI_FILE_MOST, &file))
        return FAILED;
    int status = submit_bytes(submit, name, &file);
    free_bytes(&file);
    return status;
}

/* The order of files matters, so that the first one that could not be done is the last one that is tried. */
static int submit_files(struct submit *submit)
{
    const struct options *options = submit->options;
    int highest = DONE;
    for (int i = 0; i < options->files.count && highest < FAILED; i++) {
        int status = submit_file(submit, options->files.at[i]);
        if (status > highest)
            highest = status;
        if (status == FAILED && i + 1 < options->files.count)
            say("%s and what comes after it: not submitted", options->files.at[i + 1]);
    }
    return highest;
}

static int submit_with(const struct options *options)
{
    struct submit submit = {
        .options = options,
        .terms = {.today = options->today, .book_name = options->book},
        .telling = {.format = options->format},
    };
    if (!read_file(options->book, TUULVESKI_BOOK_MOST, &submit.terms.book))
        return FAILED;
    int status = submit_files(&submit);
    free_bytes(&submit.terms.book);
    return status;
}

int command_submit(int count, char **words)
{
    struct options options;
    switch (read_options(count, words, true, &options)) {
    case PARSED:
        return submit_with(&options);
    case ASKED_FOR_HELP:
        return give_help(USAGE_OF_SUBMIT);
    default:
        return hint_at_help(words[0]);
    }
}
