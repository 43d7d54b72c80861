/* A small charting product: it keeps the clinic's ledger in a file, submits a file to the check, and tells the findings in words.
 *
 * usage: submit [--create] LEDGER
 *
 * The specification's File E is submitted twice: first with the same lot scanned twice (case P2), which is refused, then as it is, which is
 * accepted. Run it again on the ledger that it left, and File E is refused too, since its event is live. A ledger that is not there is made
 * only where --create is given. The exit status is 0 where both files got an answer, 1 where one did not, 2 where the words are not
 * understood.
 *
 * ledger_file.c and whole_file.c of the command are compiled as the product's own. The check is called on the first thread here, which has
 * the stack for it; give a thread that calls it at least 4 MiB. */
#include "ledger_file.h"
#include "tuulveski.h"
#include "tuulveski_words.h"

#include <stdio.h>
#include <string.h>

enum { TODAY = 20220930, SLOTS = 200, FINDINGS_SHOWN = 100, WAIT_SECONDS = 10 };

static const char FILE_E[] =
    "IV|7.2|\n"
    "IH|10|000001|\n"
    "IP|1|123456789|||||SMITH|JOHN||||||||||||||||20150301|||\n"
    "II|2|123456789|A||20220901||TESTV|LA|IM|50|0.5|ML|GSK|L1||||||||\n"
    "IE|3|123456789|TESTA|1|\n"
    "II|4|123456789|A||20220901||TESTV|LA|IM|50|0.5|ML|GSK|L2||||||||\n"
    "IE|5|123456789|TESTA|1|\n"
    "IF|8|0|\n";

/* Book E: the first byte of an entry is its kind. */
static const char BOOK_E[] =
    "\1TESTV               2000010199999999"
    "\2TESTA               99999999"
    "\3" "5099999999"
    "\4GSK99999999"
    "\5ML  99999999"
    "\7TESTV               5099999999"
    "\10TESTV               TESTA               99999999";

struct submission {
    const char *name;
    const uint8_t *bytes;
    size_t len;
};

static bool complain(const char *path, const char *why)
{
    fprintf(stderr, "%s: %s\n", path, why);
    return false;
}

/* Makes a ledger of free slots. One that another process made meanwhile will do as well. */
static bool create_ledger(const char *path)
{
    static const uint8_t free_slots[SLOTS * TUULVESKI_SLOT_BYTES];
    char why[LEDGER_WHY];
    bool exists;
    return ledger_create(path, free_slots, sizeof free_slots, &exists, why) || exists || complain(path, why);
}

static bool hold_ledger(struct ledger_file *ledger, const char *path, bool may_create)
{
    if (ledger_hold(ledger, path, WAIT_SECONDS))
        return true;
    if (!ledger->missing || !may_create)
        return complain(path, ledger->why);
    return create_ledger(path) && (ledger_hold(ledger, path, WAIT_SECONDS) || complain(path, ledger->why));
}

/* Findings are in the order of the file, so that the file is gone through once for all of them. */
static void tell_findings(const struct submission *file, const tuulveski_answer *answer, const uint8_t *found)
{
    tuulveski_line_at here = TUULVESKI_FIRST_LINE;
    for (size_t i = 0; i < answer->findings && i < FINDINGS_SHOWN; i++) {
        tuulveski_finding f = tuulveski_finding_at(found, i);
        here = tuulveski_line_from(file->bytes, file->len, here.start, here.line, f.line);
        tuulveski_field_at type = tuulveski_field_from(file->bytes, file->len, here.start, 1);
        tuulveski_field_at text = tuulveski_field_from(file->bytes, file->len, here.start, f.field);
        uint32_t record = tuulveski_record_of(file->bytes + type.start, type.length);
        printf("  line %u, %s, \"%.*s\": %s (rule %u)\n", (unsigned)f.line, tuulveski_field_name(record, f.field), (int)text.length,
               (const char *)file->bytes + text.start, tuulveski_rule_text(f.rule), (unsigned)f.rule);
    }
    if (answer->findings > FINDINGS_SHOWN)
        printf("  and %u more\n", (unsigned)(answer->findings - FINDINGS_SHOWN));
}

static void tell_refused(const struct submission *file, const tuulveski_answer *answer, const uint8_t *found)
{
    printf("%s: refused: %s\n", file->name, tuulveski_answer_text(answer->answer));
    if (answer->answer == TUULVESKI_SHAPE)
        printf("  line %u: %s\n", (unsigned)answer->line, tuulveski_cause_text(answer->cause));
    if (answer->answer == TUULVESKI_FINDINGS)
        tell_findings(file, answer, found);
}

static void tell_accepted(const struct submission *file, const tuulveski_answer *answer)
{
    printf("%s: accepted: %u added, %u changed, %u deleted, %u not immunized\n", file->name, (unsigned)answer->added,
           (unsigned)answer->changed, (unsigned)answer->deleted, (unsigned)answer->not_immunized);
}

/* Whether the file got an answer. It is accepted once the ledger is kept, and not before. */
static bool submit(const struct submission *file, const char *path, bool may_create)
{
    uint8_t found[FINDINGS_SHOWN * TUULVESKI_FINDING_BYTES];
    struct ledger_file ledger;
    if (!hold_ledger(&ledger, path, may_create))
        return false;
    tuulveski_answer answer = tuulveski_check(TODAY, file->bytes, file->len, (const uint8_t *)BOOK_E, sizeof BOOK_E - 1, ledger.bytes,
                                              ledger.len, found, sizeof found);
    if (answer.answer != TUULVESKI_ACCEPTED) {
        ledger_release(&ledger);
        tell_refused(file, &answer, found);
        return answer.answer >= TUULVESKI_SHAPE;
    }
    if (!ledger_keep(&ledger, ledger.bytes, ledger.len))
        return complain(path, ledger.why);
    tell_accepted(file, &answer);
    return true;
}

static bool submit_both(const char *path, bool may_create)
{
    char same_lot[sizeof FILE_E];
    memcpy(same_lot, FILE_E, sizeof FILE_E);
    memcpy(strstr(same_lot, "|L2|"), "|L1|", 4);
    const struct submission twice = {"The same lot twice", (const uint8_t *)same_lot, sizeof FILE_E - 1};
    const struct submission file_e = {"File E", (const uint8_t *)FILE_E, sizeof FILE_E - 1};
    return submit(&twice, path, may_create) && submit(&file_e, path, may_create);
}

int main(int argc, char **argv)
{
    bool may_create = argc > 1 && strcmp(argv[1], "--create") == 0;
    if (argc != (may_create ? 3 : 2)) {
        fprintf(stderr, "usage: submit [--create] LEDGER\n");
        return 2;
    }
    bool answered = submit_both(argv[argc - 1], may_create);
    if (fflush(stdout) != 0) {
        perror("standard output");
        return 1;
    }
    return answered ? 0 : 1;
}
