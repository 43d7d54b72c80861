/* Numbers written in digits. */
#ifndef DIGITS_H
#define DIGITS_H

#include <stdbool.h>
#include <stddef.h>
#include <stdint.h>

/* The number that digits write, of at most nine of them. */
uint32_t number_of(const uint8_t *digits, size_t len);

/* A number of digits alone that is not above `most`, which is below 1,000,000,000. */
bool read_number(const char *word, uint32_t most, uint32_t *number);

#endif
