#include "ledger_form.h"

#include "codes.h"
#include "dates.h"
#include "tuulveski.h"

#include <stdio.h>
#include <string.h>

size_t live_slots_of(const uint8_t *ledger, size_t len)
{
    size_t live = 0;
    while (live * TUULVESKI_SLOT_BYTES < len && ledger[live * TUULVESKI_SLOT_BYTES] == LIVE)
        live++;
    return live;
}

static bool is_free(const uint8_t *slot)
{
    static const uint8_t FREE[TUULVESKI_SLOT_BYTES];
    return memcmp(slot, FREE, TUULVESKI_SLOT_BYTES) == 0;
}

/* Null where a slot is sound after the one before it, which is null for the first. */
static const char *slot_fault(const uint8_t *slot, const uint8_t *before)
{
    if (is_free(slot))
        return NULL;
    if (slot[0] != LIVE)
        return "neither a live event nor free";
    if (before != NULL && is_free(before))
        return "a live event after a free slot";
    if (!are_digits(slot + ULI_AT, ULI_BYTES))
        return "the ULI is not nine digits";
    if (!is_date(slot + EVENT_DATE_AT))
        return "the date is not a date";
    if (!is_padded(slot + VACCINE_AT, VACCINE_BYTES))
        return "the vaccine is not a padded code";
    if (before != NULL && memcmp(slot, before, TUULVESKI_SLOT_BYTES) <= 0)
        return "not above the slot before it";
    return NULL;
}

bool explain_ledger(const uint8_t *bytes, size_t len, char *why, size_t room)
{
    size_t slots = len / TUULVESKI_SLOT_BYTES;
    if (len > (size_t)TUULVESKI_SLOTS_MOST * TUULVESKI_SLOT_BYTES) {
        snprintf(why, room, "more than %d slots", TUULVESKI_SLOTS_MOST);
        return true;
    }
    if (len % TUULVESKI_SLOT_BYTES != 0) {
        snprintf(why, room, "%zu bytes are not slots of %d", len, TUULVESKI_SLOT_BYTES);
        return true;
    }
    for (size_t i = 0; i < slots; i++) {
        const uint8_t *slot = bytes + i * TUULVESKI_SLOT_BYTES;
        const char *fault = slot_fault(slot, i == 0 ? NULL : slot - TUULVESKI_SLOT_BYTES);
        if (fault != NULL) {
            snprintf(why, room, "slot %zu: %s", i + 1, fault);
            return true;
        }
    }
    return false;
}
