#define _POSIX_C_SOURCE 200809L
#include "actions.h"
#include "book_text.h"
#include "commands.h"
#include "ledger_file.h"
#include "say.h"
#include "sound.h"
#include "tuulveski.h"
#include "whole_file.h"

#include <stdint.h>
#include <string.h>
#include <sys/stat.h>

/* The mode is less what the user's mask takes away. */
enum { PATIENCE_SECONDS = 60, BOOK_MODE = 0666 };

static const char USAGE[] =
    "usage: tuulveski book make CODES BOOK [--replace]   a code book from a text; - is standard input\n"
    "       tuulveski book show BOOK                     the text of a code book\n"
    "\n"
    "CODES has an entry a line:\n"
    "\n"
    "    vaccine               CODE START END\n"
    "    antigen               CODE END\n"
    "    reason                TWO-DIGITS END\n"
    "    manufacturer          CODE END\n"
    "    dosage-type           CODE END\n"
    "    reason-not-immunized  CODE END\n"
    "    vaccine-reason        VACCINE TWO-DIGITS END\n"
    "    vaccine-antigen       VACCINE ANTIGEN END\n"
    "\n"
    "START is a date YYYYMMDD, END a date or `open`. Lines that are empty or begin with # are passed over, and after an\n"
    "entry whatever begins with # is a comment. A faulty text writes nothing. A BOOK that is there is replaced only where\n"
    "--replace is given, if it is a code book, and then whole, with its mode and owner.\n"
    "\n"
    "Exit status: 0 done; 1 refused, for what the text holds; 2 could not be done.\n";

static bool create_book(const char *path, const struct bytes *book)
{
    char why[WHOLE_WHY];
    bool exists;
    if (whole_create(path, BOOK_MODE, book->at, book->len, &exists, why))
        return true;
    if (exists)
        say("%s: is there already; nothing was written (--replace writes over it)", path);
    else
        say("%s: %s", path, why);
    return false;
}

/* Only a book is replaced by a book: another file of that name is there by mistake. */
static bool holds_book(struct ledger_file *old, const char *path)
{
    const struct bytes bytes = {old->bytes, old->len};
    if (is_book(&bytes, path))
        return true;
    say("%s: is not a code book, so it is not replaced; nothing was written", path);
    ledger_release(old);
    return false;
}

/* A book is replaced as a ledger is: one process at a time, mode and owner kept. */
static bool replace_book(const char *path, const struct bytes *book)
{
    struct ledger_file old;
    bool held = ledger_hold(&old, path, PATIENCE_SECONDS);
    if (!held && old.missing)
        return create_book(path, book);
    if (held && !holds_book(&old, path))
        return false;
    if (held && ledger_keep(&old, book->at, book->len))
        return true;
    say("%s: %s", path, old.why);
    return false;
}

static bool is_same_file(const char *path, const char *other)
{
    struct stat one, two;
    return stat(path, &one) == 0 && stat(other, &two) == 0 && one.st_dev == two.st_dev && one.st_ino == two.st_ino;
}

static int write_book(const struct entries *entries, const struct request *request)
{
    const char *path = request->operands[1];
    struct bytes book;
    if (request->replace && is_same_file(request->operands[0], path)) {
        say("%s: is the text itself; nothing was written", path);
        return FAILED;
    }
    if (!make_book(entries, &book))
        return FAILED;
    bool written = is_book(&book, path) && (request->replace ? replace_book(path, &book) : create_book(path, &book));
    free_bytes(&book);
    return written ? DONE : FAILED;
}

static int make(const struct request *request)
{
    struct bytes text;
    struct entries entries;
    int status = FAILED;
    if (strcmp(request->operands[1], "-") == 0)
        return refuse_usage(USAGE, "book make: a book is written to a file, and - is none");
    if (!read_text(request->operands[0], &text))
        return FAILED;
    if (read_book_text(&text, &entries)) {
        if (entries.faults == 0)
            status = write_book(&entries, request);
        else {
            tell_faults(&entries, text_name(request->operands[0]), SIZE_MAX);
            status = REFUSED;
        }
        free_entries(&entries);
    }
    free_bytes(&text);
    return status;
}

static int show(const struct request *request)
{
    struct bytes book;
    if (!read_file(request->operands[0], TUULVESKI_BOOK_MOST, &book))
        return FAILED;
    bool shown = is_book(&book, request->operands[0]) && finish_output(print_book(&book, stdout));
    free_bytes(&book);
    return shown ? DONE : FAILED;
}

int command_book(int count, char **words)
{
    static const struct action ACTIONS[] = {{"make", 2, true, make}, {"show", 1, false, show}};
    static const struct command BOOK = {"book", USAGE, ACTIONS, sizeof ACTIONS / sizeof ACTIONS[0]};
    return run_command(&BOOK, count, words);
}
