#include "digits.h"

#include "codes.h"

#include <string.h>

enum { TEN = 10, DIGITS_MOST = 9 };

uint32_t number_of(const uint8_t *digits, size_t len)
{
    uint32_t number = 0;
    for (size_t i = 0; i < len; i++)
        number = TEN * number + (uint32_t)(digits[i] - '0');
    return number;
}

bool read_number(const char *word, uint32_t most, uint32_t *number)
{
    const uint8_t *digits = (const uint8_t *)word;
    size_t len = strlen(word);
    if (len == 0 || !are_digits(digits, len))
        return false;
    while (len > 1 && digits[0] == '0') {
        digits++;
        len--;
    }
    if (len > DIGITS_MOST || number_of(digits, len) > most)
        return false;
    *number = number_of(digits, len);
    return true;
}
