/* A ledger kept in a file. One process holds it at a time; it is replaced whole or stays as it was. These files (ledger_file.h,
 * ledger_file.c and, below them, whole_file.h and whole_file.c) stand on the C library and tuulveski.h alone, so that a charting product
 * can take them as they are.
 *
 * The lock is flock(2) on the ledger's file. A replaced ledger is another file of the same name, so that whoever waited for the lock looks
 * whether the name still means the file that it locked, and begins anew if not. Reading alone needs no lock: a file that is open stays
 * whole. A second name (hard link) of a ledger stays with the old file.
 */
#ifndef LEDGER_FILE_H
#define LEDGER_FILE_H

#include "tuulveski.h"

#include <stdbool.h>
#include <stddef.h>
#include <stdint.h>

#ifdef __cplusplus
extern "C" {
#endif

enum { LEDGER_MOST = TUULVESKI_SLOTS_MOST * TUULVESKI_SLOT_BYTES, LEDGER_WHY = 512 };

struct ledger_file {
    int file;             /* open and locked; -1 where none is held */
    char *path;           /* the file's own path, symbolic links followed */
    uint8_t *bytes;       /* the ledger as it was read, with room for LEDGER_MOST + 1 bytes; the holder may alter these */
    size_t len;           /* LEDGER_MOST + 1 where the file is longer than any ledger */
    bool missing;         /* it is not held because its folder has no file of that name */
    bool replaced;        /* the new ledger has the name: also where ledger_keep gave false after that */
    char why[LEDGER_WHY]; /* in words, without the path, what went wrong, after a function gave false */
};

/* Takes hold of the ledger at a path, waiting about so many seconds for another process, and reads it. Its form is not judged: the check
 * does that. The file must be one that may be read and written. Where this gives false nothing is held, and nothing need be released. */
bool ledger_hold(struct ledger_file *ledger, const char *path, unsigned seconds);

/* Replaces a ledger that is held: the new bytes (the struct's own or others) go to a file beside it, with the same mode, owner and access
 * list, are flushed, and take its name; then the folder is flushed. False, and the old ledger stands there as it was, where any of this
 * fails (if it is the very last step, the new one stands there already and may not outlast a power failure: `replaced` and `why` say so).
 * The ledger is held no more after it, either way. */
bool ledger_keep(struct ledger_file *ledger, const uint8_t *bytes, size_t len);

/* Lets go of a ledger without altering it. */
void ledger_release(struct ledger_file *ledger);

/* Makes a ledger where there is no file of that name, never over one that is there (`exists` then tells; a symbolic link that leads to
 * nothing is there too), whole or not at all; mode 600. Where only the folder could not be flushed, it gives false too, and the ledger is
 * there: `why` says so. */
bool ledger_create(const char *path, const uint8_t *bytes, size_t len, bool *exists, char why[LEDGER_WHY]);

#ifdef __cplusplus
}
#endif

#endif
