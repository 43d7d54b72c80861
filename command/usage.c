#include "usage.h"

#include "actions.h"
#include "say.h"

#include <stdio.h>

const char USAGE[] =
    "Tuulveski checks immunization submissions (guideline 7.2) before a clinic sends them to the registry, and writes\n"
    "them from chart records.\n"
    "\n"
    "  tuulveski check   --book BOOK --ledger LEDGER FILE..   tells what is wrong with files; writes nothing\n"
    "  tuulveski submit  --book BOOK --ledger LEDGER FILE..   the same, and keeps the ledger of each accepted file\n"
    "  tuulveski write   --prefix PREFIX --batch BATCH CHART  writes a file from chart records\n"
    "  tuulveski ledger  ..                                   makes, grows, fills and shows ledgers\n"
    "  tuulveski book    ..                                   makes and shows code books\n"
    "  tuulveski --help, tuulveski COMMAND --help             this help, and that of a command\n"
    "  tuulveski --version                                    the version\n"
    "\n"
    "The exit status is 0 for accepted or done, 1 for refused, 2 for what could not be done.\n";

#define COMMON_OPTIONS \
    "  -b, --book BOOK       the code book (tuulveski book makes one)\n" \
    "  -l, --ledger LEDGER   the ledger of the events that are live (tuulveski ledger makes one)\n" \
    "  -t, --today YYYYMMDD  the day to check by; the system's day if it is not given\n" \
    "  -f, --format FORMAT   words (as it is without this option), numbers or json\n"

const char USAGE_OF_CHECK[] =
    "tuulveski check [--today YYYYMMDD] --book BOOK --ledger LEDGER [--format words|numbers|json] [--] FILE..\n"
    "\n"
    "Tells of each FILE (- is standard input) whether it would be accepted, and all that is wrong with it.\n"
    "Nothing is written: each file is checked with the ledger that the files before it would leave, as\n"
    "tuulveski submit would find it.\n"
    "\n" COMMON_OPTIONS "\n"
    "The exit status is 0 if all files would be accepted, 1 if one is refused, 2 if one could not be checked.\n";

const char USAGE_OF_SUBMIT[] =
    "tuulveski submit [--today YYYYMMDD] --book BOOK --ledger LEDGER [--create SLOTS] [--wait SECONDS]\n"
    "                 [--format words|numbers|json] [--] FILE..\n"
    "\n"
    "Checks each FILE (- is standard input), and keeps the ledger that an accepted one leaves; a refused one\n"
    "alters nothing. The ledger is safe on disk before a file is told to be accepted. It stops at the first\n"
    "file that could not be checked or kept.\n"
    "\n" COMMON_OPTIONS
    "  -c, --create SLOTS    where there is no such ledger, first makes one with room for so many events, 100000 at\n"
    "                        most; it stays, whatever becomes of the files\n"
    "  -w, --wait SECONDS    how long to wait for another process that holds the ledger; 60 if it is not given\n"
    "\n"
    "The exit status is 0 if all files are accepted, 1 if one is refused, 2 if one could not be checked or kept.\n";

const char USAGE_OF_WRITE[] =
    "tuulveski write --prefix PREFIX --batch BATCH [--output FILE] [--] CHART\n"
    "\n"
    "Writes a submission from the records of CHART (- is standard input), a file of chart records as a charting\n"
    "product exports them: tuulveski.h has their bytes. The lots of one event are brought together under their\n"
    "patient record, and all records are numbered. Nothing is judged but the form of the chart: check the file\n"
    "before it is sent.\n"
    "\n"
    "  -p, --prefix PREFIX   the submitter prefix, 1 to 3 letters or digits\n"
    "  -n, --batch BATCH     the batch number, 1 to 10 letters or digits\n"
    "  -o, --output FILE     where the submission goes: whole or not at all, and never over a file that is there;\n"
    "                        to standard output without this option, and where FILE is -\n"
    "\n"
    "How many patients, immunizations and not-immunized records it has goes to standard error.\n"
    "\n"
    "The exit status is 0 if the submission is written, 1 if chart, prefix or batch number are refused, 2 if it could\n"
    "not be done.\n";

int give_help(const char *text)
{
    return finish_output(fputs(text, stdout) >= 0) ? DONE : FAILED;
}

int hint_at_help(const char *command)
{
    say("see tuulveski %s --help", command);
    return FAILED;
}
