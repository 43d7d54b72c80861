#ifndef _GNU_SOURCE
#define _GNU_SOURCE /* renameat2 */
#endif
#include "whole_file.h"

#include <errno.h>
#include <fcntl.h>
#include <stdarg.h>
#include <stdio.h>
#include <stdlib.h>
#include <string.h>
#include <sys/stat.h>
#include <sys/xattr.h>
#include <unistd.h>

enum { NARROW_MODE = 0600, MODE_BITS = 07777, ENDING_ROOM = 64, TEMPORARY_NAMES = 100 };

static const char NEW_ENDING[] = ".tuulveski-new";
static const char ACCESS_LIST[] = "system.posix_acl_access";
static const char NO_MEMORY[] = "there is not enough memory";

bool whole_fails(char why[WHOLE_WHY], const char *format, ...)
{
    va_list words;
    va_start(words, format);
    vsnprintf(why, WHOLE_WHY, format, words);
    va_end(words);
    return false;
}

size_t whole_folder_length(const char *path)
{
    const char *slash = strrchr(path, '/');
    return slash == NULL ? 0 : (size_t)(slash - path) + 1;
}

bool whole_is_named(const char *path, const struct stat *file)
{
    struct stat there;
    return lstat(path, &there) == 0 && there.st_dev == file->st_dev && there.st_ino == file->st_ino;
}

/* Where standard output or error was closed, its number would be given to the next file, and words meant for it would be written there. */
static int above_standard(int file)
{
    if (file < 0 || file > STDERR_FILENO)
        return file;
    int above = fcntl(file, F_DUPFD_CLOEXEC, STDERR_FILENO + 1), number = errno;
    close(file);
    errno = number;
    return above;
}

int whole_open(const char *path, int flags, unsigned mode)
{
    int file;
    do
        file = open(path, flags | O_CLOEXEC, mode);
    while (file < 0 && errno == EINTR);
    return above_standard(file);
}

int whole_open_folder(const char *path, char why[WHOLE_WHY])
{
    char *folder = strdup(path);
    if (folder == NULL) {
        whole_fails(why, NO_MEMORY);
        return -1;
    }
    folder[whole_folder_length(path)] = '\0';
    int file = whole_open(folder[0] == '\0' ? "." : folder, O_RDONLY | O_DIRECTORY, 0);
    if (file < 0)
        whole_fails(why, "its folder cannot be opened: %s", strerror(errno));
    free(folder);
    return file;
}

/* The path of the hidden file .NAME and an ending, in the same folder. Null where there is no memory for it. */
static char *beside(const char *path, const char *ending)
{
    size_t folder = whole_folder_length(path), room = strlen(path) + strlen(ending) + sizeof ".";
    char *made = malloc(room);
    if (made != NULL)
        snprintf(made, room, "%.*s.%s%s", (int)folder, path, path + folder, ending);
    return made;
}

static bool flush(int file)
{
    while (fsync(file) != 0)
        if (errno != EINTR)
            return false;
    return true;
}

/* Some file systems have no flush for folders and say so by EINVAL. */
static bool flush_folder(int folder, char *why)
{
    if (flush(folder) || errno == EINVAL)
        return true;
    return whole_fails(why, "the new file is in place, but may not outlast a power failure: its folder cannot be flushed: %s",
                       strerror(errno));
}

static bool write_all(int file, const uint8_t *bytes, size_t len)
{
    while (len > 0) {
        ssize_t put = write(file, bytes, len);
        if (put < 0 && errno != EINTR)
            return false;
        if (put > 0) {
            bytes += put;
            len -= (size_t)put;
        }
    }
    return true;
}

/* Fills a new file, flushes and closes it. */
static bool fill(int file, const uint8_t *bytes, size_t len, char *why)
{
    bool filled = (write_all(file, bytes, len) && flush(file)) || whole_fails(why, "the new file cannot be written: %s", strerror(errno));
    if (close(file) != 0 && errno != EINTR && filled)
        return whole_fails(why, "the new file cannot be written: %s", strerror(errno));
    return filled;
}

static bool is_no_list(int number)
{
    return number == ENODATA || number == ENOTSUP;
}

static bool copy_list(int from, int to, void *list, size_t room)
{
    ssize_t len = fgetxattr(from, ACCESS_LIST, list, room);
    return len >= 0 && fsetxattr(to, ACCESS_LIST, list, (size_t)len, 0) == 0;
}

/* Where the old file has no list, the new one may have one from its folder, by which a wider mode would let others in. */
static bool copy_access_list(int from, int to)
{
    ssize_t len = fgetxattr(from, ACCESS_LIST, NULL, 0);
    if (len < 0 && is_no_list(errno))
        return fremovexattr(to, ACCESS_LIST) == 0 || is_no_list(errno);
    if (len < 0)
        return false;
    void *list = malloc((size_t)len + 1);
    if (list == NULL)
        return false;
    bool copied = copy_list(from, to, list, (size_t)len);
    int number = errno;
    free(list);
    errno = number;
    return copied;
}

/* The owner first, since a change of owner may take bits of the mode away; the mode last, since the list has a say in it. */
static bool make_alike(int file, int old_file, char *why)
{
    struct stat made, old;
    if (fstat(file, &made) != 0 || fstat(old_file, &old) != 0)
        return whole_fails(why, "the new file cannot be compared with the old: %s", strerror(errno));
    if ((made.st_uid != old.st_uid || made.st_gid != old.st_gid) && fchown(file, old.st_uid, old.st_gid) != 0)
        return whole_fails(why, "the new file cannot be given the owner and group of the old: %s", strerror(errno));
    if (!copy_access_list(old_file, file))
        return whole_fails(why, "the new file cannot be given the access list of the old: %s", strerror(errno));
    if (fchmod(file, old.st_mode & MODE_BITS) != 0)
        return whole_fails(why, "the new file cannot be given the mode of the old: %s", strerror(errno));
    return true;
}

/* Writes the new file; it is removed again where that fails. */
static bool write_beside(const char *new_path, int old_file, const uint8_t *bytes, size_t len, char *why)
{
    if (unlink(new_path) != 0 && errno != ENOENT)
        return errno == ENAMETOOLONG ? whole_fails(why, "its name is too long for a new file beside it")
                                     : whole_fails(why, "%s is in the way: %s", new_path, strerror(errno));
    int file = whole_open(new_path, O_WRONLY | O_CREAT | O_EXCL | O_NOFOLLOW, NARROW_MODE);
    if (file < 0)
        return whole_fails(why, "no new file can be made in its folder: %s", strerror(errno));
    bool written = make_alike(file, old_file, why);
    if (written)
        written = fill(file, bytes, len, why);
    else
        close(file);
    if (!written)
        unlink(new_path);
    return written;
}

static bool holds_name(const struct old_file *old, char *why)
{
    struct stat file;
    if (fstat(old->file, &file) != 0)
        return whole_fails(why, "%s", strerror(errno));
    return whole_is_named(old->path, &file) || whole_fails(why, "another file has taken its name");
}

static bool take_place(const struct old_file *old, const char *new_path, char *why)
{
    if (!holds_name(old, why))
        return false;
    return rename(new_path, old->path) == 0 || whole_fails(why, "the new file cannot take its name: %s", strerror(errno));
}

bool whole_replace(const struct old_file *old, const uint8_t *bytes, size_t len, bool *replaced, char why[WHOLE_WHY])
{
    *replaced = false;
    int folder = whole_open_folder(old->path, why);
    if (folder < 0)
        return false;
    char *new_path = beside(old->path, NEW_ENDING);
    bool flushed = false;
    if (new_path == NULL)
        whole_fails(why, NO_MEMORY);
    else if (holds_name(old, why) && write_beside(new_path, old->file, bytes, len, why)) {
        *replaced = take_place(old, new_path, why);
        if (*replaced)
            flushed = flush_folder(folder, why);
        else
            unlink(new_path);
    }
    free(new_path);
    close(folder);
    return flushed;
}

/* A new file under a name that no other process or thread has, nor one that was killed; its path is the caller's to free. */
static int open_temporary(const char *path, unsigned mode, char **temporary, char *why)
{
    for (int i = 0; i < TEMPORARY_NAMES; i++) {
        char ending[ENDING_ROOM];
        snprintf(ending, sizeof ending, ".%ld-%d%s", (long)getpid(), i, NEW_ENDING);
        *temporary = beside(path, ending);
        if (*temporary == NULL) {
            whole_fails(why, NO_MEMORY);
            return -1;
        }
        int file = whole_open(*temporary, O_WRONLY | O_CREAT | O_EXCL | O_NOFOLLOW, mode);
        if (file >= 0)
            return file;
        int number = errno;
        free(*temporary);
        whole_fails(why, "no new file can be made in its folder: %s", strerror(number));
        if (number != EEXIST)
            return -1;
    }
    return -1;
}

/* Gives the temporary file its name, and never to the loss of another: by a rename that does not replace or, where the file system or the
 * kernel has none, by a second name. A first name that then stays does no harm. */
static bool take_free_name(const char *temporary, const char *path)
{
    if (renameat2(AT_FDCWD, temporary, AT_FDCWD, path, RENAME_NOREPLACE) == 0)
        return true;
    if ((errno != EINVAL && errno != ENOSYS) || link(temporary, path) != 0)
        return false;
    unlink(temporary);
    return true;
}

static bool create_in(int folder, const char *path, unsigned mode, const uint8_t *bytes, size_t len, bool *exists, char *why)
{
    char *temporary;
    int file = open_temporary(path, mode, &temporary, why);
    if (file < 0)
        return false;
    bool made = fill(file, bytes, len, why);
    if (made && !take_free_name(temporary, path)) {
        *exists = errno == EEXIST;
        made = whole_fails(why, "the new file cannot take its name: %s", strerror(errno));
    }
    if (!made)
        unlink(temporary);
    free(temporary);
    return made && flush_folder(folder, why);
}

bool whole_create(const char *path, unsigned mode, const uint8_t *bytes, size_t len, bool *exists, char why[WHOLE_WHY])
{
    struct stat there;
    *exists = lstat(path, &there) == 0;
    if (*exists)
        return whole_fails(why, "is there already");
    int folder = whole_open_folder(path, why);
    if (folder < 0)
        return false;
    bool made = create_in(folder, path, mode, bytes, len, exists, why);
    close(folder);
    return made;
}
