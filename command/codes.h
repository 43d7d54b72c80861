/* Codes and digits as document 01 has them. */
#ifndef CODES_H
#define CODES_H

#include <stdbool.h>
#include <stddef.h>
#include <stdint.h>

bool are_digits(const uint8_t *at, size_t len);

/* Whether these are 1 to `width` bytes in 33..126. */
bool is_code(const uint8_t *at, size_t len, size_t width);

/* Whether these bytes are a code and then blanks. */
bool is_padded(const uint8_t *at, size_t width);

/* The length of a padded code without its blanks. */
size_t code_length(const uint8_t *at, size_t width);

#endif
