/* The form of a ledger, as document 01 has it. The library says whether bytes are a ledger: this tells what is wrong with them. */
#ifndef LEDGER_FORM_H
#define LEDGER_FORM_H

#include <stdbool.h>
#include <stddef.h>
#include <stdint.h>

/* The parts of a slot, the first of which is the byte of kind. */
enum { LIVE = 1, ULI_AT = 1, ULI_BYTES = 9, EVENT_DATE_AT = 10, EVENT_DATE_BYTES = 8, VACCINE_AT = 18, VACCINE_BYTES = 20 };

/* How many slots of a sound ledger are live. */
size_t live_slots_of(const uint8_t *ledger, size_t len);

/* What is wrong with a ledger, at its first fault; false where nothing is. */
bool explain_ledger(const uint8_t *bytes, size_t len, char *why, size_t room);

#endif
