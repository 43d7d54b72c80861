#include "shown.h"

#include "utf8.h"

#include <stdlib.h>
#include <string.h>

static size_t show_escaped(uint8_t byte, char *shown)
{
    static const char DIGITS[] = "0123456789abcdef";
    static const char NAMED[] = "\t\n\r", NAMES[] = "tnr";
    const char *named = byte == 0 ? NULL : strchr(NAMED, byte);
    shown[0] = '\\';
    if (named != NULL) {
        shown[1] = NAMES[named - NAMED];
        return 2;
    }
    shown[1] = 'x';
    shown[2] = DIGITS[byte >> 4];
    shown[3] = DIGITS[byte & 0xF];
    return SHOWN_MOST;
}

size_t show_bytes(const uint8_t *at, size_t len, bool within_quotes, char *shown)
{
    size_t end = 0;
    for (size_t i = 0; i < len;) {
        uint32_t code = 0;
        size_t length = character_at(at + i, len - i, &code);
        if (length == 0 || !is_harmless(code) || (within_quotes && length > 1)) {
            end += show_escaped(at[i], shown + end);
            i++;
            continue;
        }
        if (within_quotes && (code == '"' || code == '\\'))
            shown[end++] = '\\';
        memcpy(shown + end, at + i, length);
        end += length;
        i += length;
    }
    return end;
}

char *show_name(const char *name)
{
    size_t len = strlen(name);
    char *shown = malloc(SHOWN_MOST * len + 1);
    if (shown != NULL)
        shown[show_bytes((const uint8_t *)name, len, false, shown)] = '\0';
    return shown;
}
