#include "options.h"

#include "codes.h"
#include "dates.h"
#include "digits.h"
#include "say.h"

#include <string.h>

enum { TODAY_DIGITS = 8 };

static bool take_today(void *into, const char *value)
{
    struct options *options = into;
    size_t len = strlen(value);
    if (len != TODAY_DIGITS || !are_digits((const uint8_t *)value, len)) {
        say("--today takes eight digits, YYYYMMDD, not '%s'", value);
        return false;
    }
    options->today = number_of((const uint8_t *)value, len);
    return true;
}

static bool take_book(void *into, const char *value)
{
    struct options *options = into;
    options->book = value;
    return true;
}

static bool take_ledger(void *into, const char *value)
{
    struct options *options = into;
    options->ledger = value;
    return true;
}

static bool take_format(void *into, const char *value)
{
    struct options *options = into;
    static const char *const FORMATS[] = {[WORDS] = "words", [NUMBERS] = "numbers", [JSON] = "json"};
    for (size_t i = 0; i < sizeof FORMATS / sizeof *FORMATS; i++)
        if (strcmp(value, FORMATS[i]) == 0) {
            options->format = (enum format)i;
            return true;
        }
    say("--format takes words, numbers or json, not '%s'", value);
    return false;
}

static bool take_slots(void *into, const char *value)
{
    struct options *options = into;
    options->creates = true;
    if (read_number(value, TUULVESKI_SLOTS_MOST, &options->slots))
        return true;
    say("--create takes a number of slots from 0 to %d, not '%s'", TUULVESKI_SLOTS_MOST, value);
    return false;
}

static bool take_wait(void *into, const char *value)
{
    struct options *options = into;
    if (read_number(value, WAIT_MOST, &options->wait))
        return true;
    say("--wait takes a number of seconds from 0 to %d, not '%s'", WAIT_MOST, value);
    return false;
}

/* The last ones are for `submit` alone. */
static const struct named_option OPTIONS[] = {
    {'t', "today", take_today},   {'b', "book", take_book},    {'l', "ledger", take_ledger},
    {'f', "format", take_format}, {'c', "create", take_slots}, {'w', "wait", take_wait},
};
enum { OPTION_COUNT = sizeof OPTIONS / sizeof *OPTIONS, SUBMIT_ALONE = 2 };

static bool is_whole(const struct options *options, const char *command, bool is_submit)
{
    if (options->book == NULL || options->ledger == NULL) {
        say("%s needs --%s", command, options->book == NULL ? "book" : "ledger");
        return false;
    }
    if (options->files.count == 0) {
        say("%s needs the name of a file", command);
        return false;
    }
    if (is_submit && is_standard(options->ledger)) {
        say("a ledger that is to be kept cannot be standard input");
        return false;
    }
    int inputs = is_standard(options->book) + is_standard(options->ledger);
    for (int i = 0; i < options->files.count; i++)
        inputs += is_standard(options->files.at[i]);
    if (inputs > 1)
        say("standard input (-) can be read once only");
    return inputs <= 1;
}

enum parsed read_options(int count, char **words, bool is_submit, struct options *options)
{
    const struct option_list list = {OPTIONS, is_submit ? OPTION_COUNT : OPTION_COUNT - SUBMIT_ALONE};
    *options = (struct options){.today = system_day(), .format = WORDS, .wait = WAIT_USUALLY};
    enum parsed parsed = read_words(count, words, &list, options, &options->files);
    if (parsed != PARSED)
        return parsed;
    return is_whole(options, words[0], is_submit) ? PARSED : NOT_UNDERSTOOD;
}
