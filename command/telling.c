#include "telling.h"

#include "actions.h"
#include "say.h"
#include "shown.h"
#include "tuulveski_words.h"

#include <stdio.h>
#include <stdlib.h>

int status_of(const tuulveski_answer *answer)
{
    switch (answer->answer) {
    case TUULVESKI_ACCEPTED:
        return DONE;
    case TUULVESKI_LONG:
    case TUULVESKI_SHAPE:
    case TUULVESKI_FINDINGS:
    case TUULVESKI_FULL:
        return REFUSED;
    default:
        return FAILED;
    }
}

/* What could not be done is said in words, whatever the format. */
static void say_failure(const struct told *told)
{
    const struct verdict *verdict = told->verdict;
    const char *text = tuulveski_answer_text(verdict->answer.answer), *colon = verdict->why[0] == '\0' ? "" : ": ";
    switch (verdict->answer.answer) {
    case TUULVESKI_DATE:
        say("%s: %08lu; a day of the years 1800 to 2199 would be right", text, (unsigned long)told->terms->today);
        break;
    case TUULVESKI_BOOK:
        say("%s: %s%s%s", told->terms->book_name, text, colon, verdict->why);
        break;
    case TUULVESKI_LEDGER:
        say("%s: %s%s%s", told->ledger, text, colon, verdict->why);
        break;
    default:
        break;
    }
}

static bool tell_in_words(const struct told *told)
{
    struct names names = {show_name(told->name), show_name(told->ledger)};
    bool has_names = names.file != NULL && names.ledger != NULL;
    if (has_names)
        tell_words(told, &names);
    else
        say("there is not enough memory");
    free(names.file);
    free(names.ledger);
    return has_names;
}

static bool write_out(enum format format, const struct told *told)
{
    if (format == WORDS && !tell_in_words(told))
        return false;
    if (format == NUMBERS)
        tell_numbers(told);
    if (format == JSON)
        tell_json(told);
    return finish_output(!ferror(stdout));
}

bool tell(struct telling *telling, const struct told *told)
{
    bool written = write_out(telling->format, told), *said = &telling->said[told->verdict->answer.answer];
    if (!*said)
        say_failure(told);
    *said = true;
    return written;
}
