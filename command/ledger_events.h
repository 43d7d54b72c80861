/* Events as a text, one a line as `ledger show` prints them: ULI DATE VACCINE. */
#ifndef LEDGER_EVENTS_H
#define LEDGER_EVENTS_H

#include "bytes.h"
#include "entries.h"

#include <stdio.h>

/* The events of a text, each of which is to become live in a sound ledger, and every fault that stands against that. False, and said why,
 * where there is no memory for them. */
bool read_events(const struct bytes *text, const struct bytes *ledger, struct entries *events);

/* Makes events that have no fault live. The ledger has the slots for them. */
void add_events(const struct entries *events, struct bytes *ledger);

/* Prints the live events of a sound ledger. False, and errno, where they cannot be written. */
bool print_events(const struct bytes *ledger, FILE *out);

#endif
