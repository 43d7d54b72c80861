#include "codes.h"

enum { LOWEST = 33, HIGHEST = 126 };

bool are_digits(const uint8_t *at, size_t len)
{
    for (size_t i = 0; i < len; i++)
        if (at[i] < '0' || at[i] > '9')
            return false;
    return true;
}

bool is_code(const uint8_t *at, size_t len, size_t width)
{
    for (size_t i = 0; i < len; i++)
        if (at[i] < LOWEST || at[i] > HIGHEST)
            return false;
    return len >= 1 && len <= width;
}

size_t code_length(const uint8_t *at, size_t width)
{
    while (width > 0 && at[width - 1] == ' ')
        width--;
    return width;
}

bool is_padded(const uint8_t *at, size_t width)
{
    return is_code(at, code_length(at, width), width);
}
