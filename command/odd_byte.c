#include "odd_byte.h"

enum { PRINTABLE_LEAST = 32, PRINTABLE_MOST = 126 };

bool is_printable(uint8_t byte)
{
    return byte >= PRINTABLE_LEAST && byte <= PRINTABLE_MOST;
}

void add_hex(struct text *message, uint8_t byte)
{
    static const char DIGITS[] = "0123456789ABCDEF";
    const uint8_t hex[] = {'0', 'x', (uint8_t)DIGITS[byte >> 4], (uint8_t)DIGITS[byte & 0xF]};
    add_bytes(message, hex, sizeof hex);
}

const char *name_of_byte(uint8_t byte)
{
    switch (byte) {
    case '\t':
        return " (a tab)";
    case '\n':
        return " (a line feed, LF)";
    case '\r':
        return " (a carriage return, CR)";
    case '|':
        return " (a pipe)";
    default:
        return byte > PRINTABLE_MOST + 1 ? " (of a letter with an accent, or the like)" : "";
    }
}
