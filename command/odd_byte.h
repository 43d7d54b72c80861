/* A byte that may not stand where it does, in words. */
#ifndef ODD_BYTE_H
#define ODD_BYTE_H

#include "text.h"

#include <stdbool.h>

/* Whether it is in 32..126. */
bool is_printable(uint8_t byte);

/* "0x7C" */
void add_hex(struct text *message, uint8_t byte);

/* What it often comes from, as " (a tab)"; "" where that is not known. */
const char *name_of_byte(uint8_t byte);

#endif
