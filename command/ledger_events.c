#include "ledger_events.h"

#include "codes.h"
#include "dates.h"
#include "ledger_form.h"
#include "tuulveski.h"

#include <string.h>

enum { EVENT_WORDS = 3 };

static bool refuse_word(const struct word *word, const char *wanted, char fault[FAULT_ROOM])
{
    char quoted[QUOTED_ROOM];
    snprintf(fault, FAULT_ROOM, "%s is not %s", quote(word, quoted), wanted);
    return false;
}

static bool read_event(const struct text_line *line, struct entry *entry, char fault[FAULT_ROOM])
{
    const struct word *uli = &line->words[0], *date = &line->words[1], *vaccine = &line->words[2];
    if (!has_words(line, EVENT_WORDS)) {
        snprintf(fault, FAULT_ROOM, "an event is three words: ULI, date, vaccine");
        return false;
    }
    if (uli->len != ULI_BYTES || !are_digits(uli->at, ULI_BYTES))
        return refuse_word(uli, "a ULI of nine digits", fault);
    if (date->len != EVENT_DATE_BYTES || !is_date(date->at))
        return refuse_word(date, "a date", fault);
    if (!is_code(vaccine->at, vaccine->len, VACCINE_BYTES))
        return refuse_word(vaccine, "a code of 1 to 20 bytes in 33..126", fault);
    entry->bytes[0] = LIVE;
    memcpy(entry->bytes + ULI_AT, uli->at, ULI_BYTES);
    memcpy(entry->bytes + EVENT_DATE_AT, date->at, EVENT_DATE_BYTES);
    memset(entry->bytes + VACCINE_AT, ' ', VACCINE_BYTES);
    memcpy(entry->bytes + VACCINE_AT, vaccine->at, vaccine->len);
    entry->key_len = entry->len = TUULVESKI_SLOT_BYTES;
    return true;
}

static const struct entry_form EVENTS = {"the same event", read_event};

static uint8_t *slot_of(const struct bytes *ledger, size_t slot)
{
    return ledger->at + slot * TUULVESKI_SLOT_BYTES;
}

/* Events and live slots ascend both, so that one walk through them finds what is in both. */
static void mark_live(struct entries *events, const struct bytes *ledger)
{
    size_t slot = 0, live = live_slots_of(ledger->at, ledger->len);
    for (size_t i = 0; i < events->count; i++) {
        struct entry *event = events->ascending[i];
        while (slot < live && memcmp(slot_of(ledger, slot), event->bytes, TUULVESKI_SLOT_BYTES) < 0)
            slot++;
        if (slot < live && memcmp(slot_of(ledger, slot), event->bytes, TUULVESKI_SLOT_BYTES) == 0)
            mark_fault(events, event, "the event is live already");
    }
}

bool read_events(const struct bytes *text, const struct bytes *ledger, struct entries *events)
{
    if (!read_entries(text, &EVENTS, events))
        return false;
    mark_live(events, ledger);
    return true;
}

/* From the highest to the lowest, so that each slot is read before it is written. */
void add_events(const struct entries *events, struct bytes *ledger)
{
    size_t live = live_slots_of(ledger->at, ledger->len), left = events->count;
    while (left > 0) {
        const struct entry *event = events->ascending[left - 1];
        uint8_t *to = slot_of(ledger, live + left - 1);
        if (live > 0 && memcmp(slot_of(ledger, live - 1), event->bytes, TUULVESKI_SLOT_BYTES) > 0)
            memcpy(to, slot_of(ledger, --live), TUULVESKI_SLOT_BYTES);
        else {
            memcpy(to, event->bytes, TUULVESKI_SLOT_BYTES);
            left--;
        }
    }
}

bool print_events(const struct bytes *ledger, FILE *out)
{
    size_t live = live_slots_of(ledger->at, ledger->len);
    for (size_t i = 0; i < live; i++) {
        const uint8_t *slot = slot_of(ledger, i);
        int vaccine = (int)code_length(slot + VACCINE_AT, VACCINE_BYTES);
        if (fprintf(out, "%.*s %.*s %.*s\n", ULI_BYTES, (const char *)slot + ULI_AT, EVENT_DATE_BYTES, (const char *)slot + EVENT_DATE_AT,
                    vaccine, (const char *)slot + VACCINE_AT) < 0)
            return false;
    }
    return true;
}
