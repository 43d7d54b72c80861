#include "utf8.h"

enum { LAST_ASCII = 0x7F, FOLLOWING = 0x80, FOLLOWING_BITS = 6, FOLLOWING_MASK = 0x3F, LAST_CODE = 0x10FFFF };

/* How many bytes a character that starts with this one has, and the bits of its code in it. */
static size_t length_by(uint8_t first, uint32_t *bits)
{
    static const struct {
        uint8_t mask, start;
    } FORMS[] = {{0x80, 0x00}, {0xE0, 0xC0}, {0xF0, 0xE0}, {0xF8, 0xF0}};
    for (size_t i = 0; i < sizeof FORMS / sizeof *FORMS; i++)
        if ((first & FORMS[i].mask) == FORMS[i].start) {
            *bits = (uint32_t)(first & ~FORMS[i].mask & 0xFF);
            return i + 1;
        }
    return 0;
}

/* No code in more bytes than it needs, no half of a pair of UTF-16, none above the last. */
static bool is_code(uint32_t code, size_t length)
{
    static const uint32_t LEAST[] = {0, 0, 0x80, 0x800, 0x10000};
    return code >= LEAST[length] && code <= LAST_CODE && !(code >= 0xD800 && code <= 0xDFFF);
}

size_t character_at(const uint8_t *at, size_t len, uint32_t *code)
{
    if (len == 0)
        return 0;
    uint32_t bits = 0;
    size_t length = length_by(at[0], &bits);
    if (length == 0 || length > len)
        return 0;
    for (size_t i = 1; i < length; i++) {
        if ((at[i] & ~FOLLOWING_MASK) != FOLLOWING)
            return 0;
        bits = bits << FOLLOWING_BITS | (at[i] & FOLLOWING_MASK);
    }
    if (!is_code(bits, length))
        return 0;
    *code = bits;
    return length;
}

bool is_harmless(uint32_t code)
{
    bool is_control = code < 0x20 || (code >= LAST_ASCII && code < 0xA0);
    bool is_mark = code == 0x061C || code == 0x200E || code == 0x200F || code == 0xFEFF;
    bool is_turn = (code >= 0x2028 && code <= 0x202E) || (code >= 0x2066 && code <= 0x2069);
    return !is_control && !is_mark && !is_turn;
}
