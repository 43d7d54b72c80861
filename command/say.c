#include "say.h"

#include "shown.h"

#include <stdarg.h>
#include <stdio.h>
#include <string.h>

/* More than the longest path and a sentence. */
enum { SAID_MOST = 6000 };

/* Names of files are among the words, so that what they must not do to a terminal is escaped here, once for all messages. */
void say(const char *format, ...)
{
    static const char START[] = "tuulveski: ";
    static char said[SAID_MOST], shown[sizeof START + SHOWN_MOST * SAID_MOST];
    va_list words;
    va_start(words, format);
    int length = vsnprintf(said, sizeof said, format, words);
    va_end(words);
    if (length < 0)
        said[0] = '\0';
    size_t end = sizeof START - 1;
    memcpy(shown, START, end);
    end += show_bytes((const uint8_t *)said, strlen(said), false, shown + end);
    shown[end++] = '\n';
    fwrite(shown, 1, end, stderr);
}
