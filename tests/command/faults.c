/* Stands between the command and the C library: the command is compiled with -Dopen=faulty_open and so on. Every call that could fail is
 * counted, and one of them fails as the environment says.
 *
 *     FAULT_AT=N      the N-th call, from 1; with FAULT_ON=1 all that come after it as well
 *     FAULT_HOW=..    the number of an error; SHORT: a few bytes only are read or written; KILL: the process is killed there; MOVE:
 *                     FAULT_OTHER is moved to FAULT_NAME, as another process might, and the call is done
 *
 * Words for the test go to standard error: @at CALL where the fault is, @unflushed where a file takes its name before it is flushed, and
 * at the end @calls N, with @folder where the folder was not flushed after that.
 */
#define _GNU_SOURCE
#include <errno.h>
#include <fcntl.h>
#include <signal.h>
#include <stdarg.h>
#include <stdbool.h>
#include <stdint.h>
#include <stdio.h>
#include <stdlib.h>
#include <string.h>
#include <sys/file.h>
#include <sys/stat.h>
#include <sys/types.h>
#include <sys/xattr.h>
#include <unistd.h>

enum { FILES = 1024, ROOM = 100, FEW_BYTES = 20 };

static long calls, fault_at;
static const char *fault_how = "";
static bool fault_on, folder_due, closed_unflushed, unflushed[FILES];

static void mark(const char *word, const char *more)
{
    char line[ROOM];
    int len = snprintf(line, sizeof line, "@%s %s\n", word, more);
    if (len > 0 && write(STDERR_FILENO, line, (size_t)len) < 0)
        abort();
}

static void tell_end(void)
{
    char number[ROOM];
    snprintf(number, sizeof number, "%ld", calls);
    if (folder_due)
        mark("folder", "");
    mark("calls", number);
}

__attribute__((constructor)) static void prepare(void)
{
    const char *at = getenv("FAULT_AT"), *how = getenv("FAULT_HOW");
    fault_at = at == NULL ? 0 : atol(at);
    fault_how = how == NULL ? "" : how;
    fault_on = getenv("FAULT_ON") != NULL;
    atexit(tell_end);
}

static void move_another_file(void)
{
    const char *from = getenv("FAULT_OTHER"), *to = getenv("FAULT_NAME");
    if (from == NULL || to == NULL || rename(from, to) != 0)
        abort();
}

/* Whether this call is the one; what is to be done at its place, not instead of it, is done. */
static bool is_here(const char *call)
{
    calls++;
    if (fault_at == 0 || calls < fault_at || (calls > fault_at && !fault_on))
        return false;
    if (calls == fault_at)
        mark("at", call);
    if (strcmp(fault_how, "KILL") == 0)
        kill(getpid(), SIGKILL);
    if (strcmp(fault_how, "MOVE") == 0)
        move_another_file();
    return true;
}

/* Whether the call is to fail, with errno set. Calls that no signal interrupts are not interrupted. */
static bool fails(const char *call, bool may_be_interrupted)
{
    if (!is_here(call))
        return false;
    int number = atoi(fault_how);
    if (number == 0 || (number == EINTR && !may_be_interrupted))
        return false;
    errno = number;
    return true;
}

static size_t shortened(size_t len)
{
    if (calls != fault_at || strcmp(fault_how, "SHORT") != 0)
        return len;
    return len > FEW_BYTES ? FEW_BYTES : (len + 1) / 2;
}

static void look_at_flushes(void)
{
    bool early = closed_unflushed;
    for (int file = 0; file < FILES; file++)
        early = early || unflushed[file];
    if (early)
        mark("unflushed", "");
    folder_due = true;
}

#define FAULTY(result, name, parameters, arguments, interrupted)            \
    result faulty_##name parameters                                         \
    {                                                                       \
        return fails(#name, interrupted) ? (result)-1 : (name)arguments;    \
    }

FAULTY(int, fstat, (int file, struct stat *found), (file, found), false)
FAULTY(int, lstat, (const char *path, struct stat *found), (path, found), false)
FAULTY(int, flock, (int file, int how), (file, how), true)
FAULTY(int, fchown, (int file, uid_t user, gid_t group), (file, user, group), false)
FAULTY(int, fchmod, (int file, mode_t mode), (file, mode), false)
FAULTY(int, unlink, (const char *path), (path), false)
FAULTY(ssize_t, fgetxattr, (int file, const char *name, void *value, size_t len), (file, name, value, len), false)
FAULTY(int, fsetxattr, (int file, const char *name, const void *value, size_t len, int how), (file, name, value, len, how), false)
FAULTY(int, fremovexattr, (int file, const char *name), (file, name), false)

#define FAULTY_POINTER(result, name, parameters, arguments)                 \
    result faulty_##name parameters                                         \
    {                                                                       \
        return fails(#name, false) ? NULL : (name)arguments;                \
    }

FAULTY_POINTER(void *, malloc, (size_t len), (len))
FAULTY_POINTER(void *, calloc, (size_t count, size_t len), (count, len))
FAULTY_POINTER(void *, realloc, (void *old, size_t len), (old, len))
FAULTY_POINTER(char *, strdup, (const char *text), (text))
FAULTY_POINTER(char *, realpath, (const char *path, char *real), (path, real))

int faulty_open(const char *path, int flags, ...)
{
    va_list more;
    va_start(more, flags);
    mode_t mode = flags & O_CREAT ? va_arg(more, mode_t) : 0;
    va_end(more);
    return fails("open", true) ? -1 : open(path, flags, mode);
}

ssize_t faulty_read(int file, void *bytes, size_t len)
{
    return fails("read", true) ? -1 : read(file, bytes, shortened(len));
}

ssize_t faulty_write(int file, const void *bytes, size_t len)
{
    if (fails("write", true))
        return -1;
    if (file > STDERR_FILENO && file < FILES)
        unflushed[file] = true;
    return write(file, bytes, shortened(len));
}

int faulty_fsync(int file)
{
    struct stat found;
    if (fails("fsync", true))
        return -1;
    if (file >= 0 && file < FILES)
        unflushed[file] = false;
    if (fstat(file, &found) == 0 && S_ISDIR(found.st_mode))
        folder_due = false;
    return fsync(file);
}

/* A close that fails has closed all the same. */
int faulty_close(int file)
{
    bool failed = fails("close", true);
    int number = errno, status = close(file);
    if (file >= 0 && file < FILES) {
        closed_unflushed = closed_unflushed || unflushed[file];
        unflushed[file] = false;
    }
    if (failed)
        errno = number;
    return failed ? -1 : status;
}

static int named(int status)
{
    if (status == 0)
        look_at_flushes();
    return status;
}

int faulty_rename(const char *from, const char *to)
{
    return fails("rename", false) ? -1 : named(rename(from, to));
}

int faulty_renameat2(int from_folder, const char *from, int to_folder, const char *to, unsigned flags)
{
    return fails("renameat2", false) ? -1 : named(renameat2(from_folder, from, to_folder, to, flags));
}

int faulty_link(const char *from, const char *to)
{
    return fails("link", false) ? -1 : named(link(from, to));
}
