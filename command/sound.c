#include "sound.h"

#include "book_form.h"
#include "judge.h"
#include "ledger_form.h"
#include "say.h"
#include "tuulveski_words.h"

enum { ANY_DATE = 20000101, REASON_ROOM = 256 };

/* An empty file is refused for its shape where book and ledger are sound, and else for these. */
static bool answer_of(const struct bytes *book, const struct bytes *ledger, uint32_t *number)
{
    uint8_t nothing[1] = {0}, no_slot[1] = {0};
    const struct bytes empty = {nothing, 0};
    struct bytes slots = ledger == NULL ? (struct bytes){no_slot, 0} : *ledger, findings;
    tuulveski_answer answer;
    if (!judge(ANY_DATE, &empty, book == NULL ? &empty : book, &slots, &findings, &answer))
        return false;
    free_bytes(&findings);
    *number = answer.answer;
    return true;
}

/* The answer that bytes of a form get where they are malformed, and what explains it. */
struct form {
    uint32_t malformed;
    bool (*explain)(const uint8_t *bytes, size_t len, char *why, size_t room);
};

static bool is_sound(const struct bytes *bytes, const struct form *form, uint32_t answer, const char *path)
{
    char why[REASON_ROOM] = "";
    if (answer != form->malformed)
        return true;
    bool explained = form->explain(bytes->at, bytes->len, why, sizeof why);
    say("%s: %s%s%s", path, tuulveski_answer_text(form->malformed), explained ? ": " : "", why);
    return false;
}

bool is_ledger(const struct bytes *ledger, const char *path)
{
    static const struct form LEDGER = {TUULVESKI_LEDGER, explain_ledger};
    uint32_t answer;
    return answer_of(NULL, ledger, &answer) && is_sound(ledger, &LEDGER, answer, path);
}

bool is_book(const struct bytes *book, const char *path)
{
    static const struct form BOOK = {TUULVESKI_BOOK, explain_book};
    uint32_t answer;
    return answer_of(book, NULL, &answer) && is_sound(book, &BOOK, answer, path);
}
