/* Whether bytes are a ledger or a book: the library decides. False, and said why, where they are not or where it cannot be asked. */
#ifndef SOUND_H
#define SOUND_H

#include "bytes.h"

bool is_ledger(const struct bytes *ledger, const char *path);

bool is_book(const struct bytes *book, const char *path);

#endif
