#include "judge.h"

#include "book_form.h"
#include "ledger_form.h"
#include "say.h"
#include "stack.h"

#include <stdlib.h>
#include <string.h>

enum { FIRST_FINDINGS = 100000 };

struct call {
    uint32_t today;
    const struct bytes *file, *book;
    struct bytes *ledger, *findings;
    tuulveski_answer answer;
};

static void *run(void *with)
{
    struct call *call = with;
    call->answer = tuulveski_check(call->today, call->file->at, call->file->len, call->book->at, call->book->len, call->ledger->at,
                                   call->ledger->len, call->findings->at, call->findings->len);
    return NULL;
}

static bool run_with_room(struct call *call, size_t findings)
{
    call->findings->at = malloc(findings * TUULVESKI_FINDING_BYTES);
    if (call->findings->at == NULL) {
        say("there is not enough memory for the findings");
        return false;
    }
    call->findings->len = findings * TUULVESKI_FINDING_BYTES;
    if (run_on_own_stack(run, call))
        return true;
    free_bytes(call->findings);
    return false;
}

bool judge(uint32_t today, const struct bytes *file, const struct bytes *book, struct bytes *ledger, struct bytes *findings,
           tuulveski_answer *answer)
{
    struct call call = {.today = today, .file = file, .book = book, .ledger = ledger, .findings = findings};
    bool done = run_with_room(&call, FIRST_FINDINGS);
    if (done && call.answer.findings > FIRST_FINDINGS) {
        free_bytes(findings);
        done = run_with_room(&call, call.answer.findings);
    }
    if (!done)
        return false;
    findings->len = (size_t)call.answer.findings * TUULVESKI_FINDING_BYTES;
    *answer = call.answer;
    return true;
}

/* How many slots a full ledger has too few for the file: the file is judged once more, with as many as a ledger can have. */
static bool find_missing(const struct terms *terms, const struct bytes *file, const struct bytes *ledger, size_t *missing)
{
    struct bytes findings, widest = {calloc(TUULVESKI_SLOTS_MOST, TUULVESKI_SLOT_BYTES), TUULVESKI_SLOTS_MOST * TUULVESKI_SLOT_BYTES};
    tuulveski_answer answer;
    if (widest.at == NULL) {
        say("there is not enough memory for a ledger of %d slots", TUULVESKI_SLOTS_MOST);
        return false;
    }
    memcpy(widest.at, ledger->at, ledger->len);
    bool done = judge(terms->today, file, &terms->book, &widest, &findings, &answer);
    if (done) {
        size_t live = live_slots_of(ledger->at, ledger->len), slots = ledger->len / TUULVESKI_SLOT_BYTES;
        *missing = answer.answer == TUULVESKI_ACCEPTED ? live + answer.added - answer.deleted - slots : 0;
        free_bytes(&findings);
    }
    free_bytes(&widest);
    return done;
}

static void find_fault(const struct terms *terms, const struct bytes *ledger, struct verdict *verdict)
{
    bool explained = false;
    if (verdict->answer.answer == TUULVESKI_BOOK)
        explained = explain_book(terms->book.at, terms->book.len, verdict->why, sizeof verdict->why);
    if (verdict->answer.answer == TUULVESKI_LEDGER)
        explained = explain_ledger(ledger->at, ledger->len, verdict->why, sizeof verdict->why);
    if (!explained)
        verdict->why[0] = '\0';
}

bool reach_verdict(const struct terms *terms, const struct bytes *file, struct bytes *ledger, struct verdict *verdict)
{
    verdict->missing = 0;
    if (!judge(terms->today, file, &terms->book, ledger, &verdict->findings, &verdict->answer))
        return false;
    find_fault(terms, ledger, verdict);
    if (verdict->answer.answer != TUULVESKI_FULL || find_missing(terms, file, ledger, &verdict->missing))
        return true;
    free_verdict(verdict);
    return false;
}

void free_verdict(struct verdict *verdict)
{
    free_bytes(&verdict->findings);
}
