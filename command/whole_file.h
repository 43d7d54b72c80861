/* Files that are written whole or not at all: under a name of their own beside the place where they belong, flushed, and then renamed. Only
 * the C library is needed. */
#ifndef WHOLE_FILE_H
#define WHOLE_FILE_H

#include <stdbool.h>
#include <stddef.h>
#include <stdint.h>

#ifdef __cplusplus
extern "C" {
#endif

enum { WHOLE_WHY = 512 };

struct stat;

/* An open file that is to be replaced, and the path that names it, which is no symbolic link. */
struct old_file {
    int file;
    const char *path;
};

/* Replaces a file by a new one that is written to .NAME.tuulveski-new in the same folder, with the mode, owner and access list of the old.
 * Whoever calls this must have seen to it that nobody else does so with the same name at the same time; what such a call left there when it
 * was killed is removed. False, with the reason in words, where it fails; the old file then has its name still, unless `replaced`: then the
 * new one has it, and only the folder could not be flushed. */
bool whole_replace(const struct old_file *old, const uint8_t *bytes, size_t len, bool *replaced, char why[WHOLE_WHY]);

/* Makes a file, never over one that is there (`exists` then tells), whole or not at all. Where only the folder could not be flushed, it gives
 * false too, and the file is there: `why` says so. A process that is killed may leave .NAME.PROCESS-N.tuulveski-new in the folder, which is
 * in nobody's way. */
bool whole_create(const char *path, unsigned mode, const uint8_t *bytes, size_t len, bool *exists, char why[WHOLE_WHY]);

/* Whether a path is the name of this very file, not of a link to it. */
bool whole_is_named(const char *path, const struct stat *file);

/* So much of a path, its last slash included, is its folder; nothing where the path is a name alone. */
size_t whole_folder_length(const char *path);

/* The folder of a path, open; -1, and why, where it cannot be opened. */
int whole_open_folder(const char *path, char why[WHOLE_WHY]);

/* An open file that no other program inherits and that is none of the three standard ones; -1, and errno, where it cannot be opened. */
int whole_open(const char *path, int flags, unsigned mode);

#if defined __GNUC__
#define WRITES_AS_PRINTF __attribute__((format(printf, 2, 3)))
#else
#define WRITES_AS_PRINTF
#endif

/* Writes down why, and gives false. */
bool whole_fails(char why[WHOLE_WHY], const char *format, ...) WRITES_AS_PRINTF;

#ifdef __cplusplus
}
#endif

#endif
