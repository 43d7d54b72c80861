/* Characters of UTF-8, and which of them may stand on a terminal's line as they are. */
#ifndef UTF8_H
#define UTF8_H

#include <stdbool.h>
#include <stddef.h>
#include <stdint.h>

/* How many bytes the character at the start of some bytes has, and its code; 0 where these bytes do not start with one. */
size_t character_at(const uint8_t *at, size_t len, uint32_t *code);

/* Whether a character neither moves the cursor nor turns the direction of a line: what is printed cannot be faked by it. */
bool is_harmless(uint32_t code);

#endif
