/* Bytes from outside (names of files, texts of fields) as they may stand on a line that is told: what could fake a line, or move a
 * terminal's cursor, stands there as \n, \x1b and so on. */
#ifndef SHOWN_H
#define SHOWN_H

#include <stdbool.h>
#include <stddef.h>
#include <stdint.h>

/* A byte takes at most so many. */
enum { SHOWN_MOST = 4 };

/* Writes the bytes as they are shown, SHOWN_MOST * len at most and no end, and gives back how many. Within quotes nothing but ASCII stands
 * as it is, and a quote and a backslash have a backslash before them. */
size_t show_bytes(const uint8_t *at, size_t len, bool within_quotes, char *shown);

/* A name as it is shown, in memory of its own; null where there is none. */
char *show_name(const char *name);

#endif
