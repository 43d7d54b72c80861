#ifndef _GNU_SOURCE
#define _GNU_SOURCE /* flock, realpath */
#endif
#include "ledger_file.h"

#include "whole_file.h"

#include <errno.h>
#include <fcntl.h>
#include <stdlib.h>
#include <string.h>
#include <sys/file.h>
#include <sys/stat.h>
#include <time.h>
#include <unistd.h>

enum { ROOM = LEDGER_MOST + 1, NAP_NANOSECONDS = 10000000, LEDGER_MODE = 0600 };

typedef char why_is_one_size[(int)LEDGER_WHY == (int)WHOLE_WHY ? 1 : -1];

static struct timespec in_seconds(unsigned seconds)
{
    struct timespec then = {0, 0};
    if (clock_gettime(CLOCK_MONOTONIC, &then) == 0)
        then.tv_sec += (time_t)seconds;
    return then;
}

static bool is_past(const struct timespec *then)
{
    struct timespec now;
    if (clock_gettime(CLOCK_MONOTONIC, &now) != 0)
        return true;
    return now.tv_sec != then->tv_sec ? now.tv_sec > then->tv_sec : now.tv_nsec >= then->tv_nsec;
}

static void nap(void)
{
    const struct timespec moment = {0, NAP_NANOSECONDS};
    nanosleep(&moment, NULL);
}

/* What is closed here was never written to, so that nothing can be lost by it. */
void ledger_release(struct ledger_file *ledger)
{
    if (ledger->file >= 0)
        close(ledger->file);
    free(ledger->path);
    free(ledger->bytes);
    ledger->file = -1;
    ledger->path = NULL;
    ledger->bytes = NULL;
    ledger->len = 0;
}

/* A path leads to no file: the end of a link is missing, or the folder, or the file alone. */
static bool tell_missing(struct ledger_file *ledger, const char *path)
{
    struct stat link;
    if (lstat(path, &link) == 0)
        return whole_fails(ledger->why, "is a symbolic link that leads to no file");
    int folder = whole_open_folder(path, ledger->why);
    if (folder < 0)
        return false;
    close(folder);
    ledger->missing = path[whole_folder_length(path)] != '\0';
    return whole_fails(ledger->why, "%s", strerror(ENOENT));
}

static bool open_ledger(struct ledger_file *ledger, const char *path, struct stat *held)
{
    ledger->path = realpath(path, NULL);
    if (ledger->path == NULL && errno == ENOENT)
        return tell_missing(ledger, path);
    if (ledger->path == NULL)
        return whole_fails(ledger->why, "%s", strerror(errno));
    ledger->file = whole_open(ledger->path, O_RDWR | O_NOFOLLOW | O_NONBLOCK | O_NOCTTY, 0);
    if (ledger->file < 0 || fstat(ledger->file, held) != 0)
        return whole_fails(ledger->why, "%s", strerror(errno));
    return S_ISREG(held->st_mode) || whole_fails(ledger->why, "is not a regular file");
}

static bool lock(struct ledger_file *ledger, const struct timespec *until)
{
    while (flock(ledger->file, LOCK_EX | LOCK_NB) != 0) {
        if (errno != EWOULDBLOCK && errno != EINTR)
            return whole_fails(ledger->why, "cannot be locked: %s", strerror(errno));
        if (is_past(until))
            return whole_fails(ledger->why, "another process holds it; nothing was altered, try again later");
        nap();
    }
    return true;
}

static bool read_whole(struct ledger_file *ledger)
{
    ledger->bytes = malloc(ROOM);
    if (ledger->bytes == NULL)
        return whole_fails(ledger->why, "there is not enough memory");
    while (ledger->len < ROOM) {
        ssize_t got = read(ledger->file, ledger->bytes + ledger->len, ROOM - ledger->len);
        if (got == 0)
            break;
        if (got > 0)
            ledger->len += (size_t)got;
        else if (errno != EINTR)
            return whole_fails(ledger->why, "%s", strerror(errno));
    }
    return true;
}

bool ledger_hold(struct ledger_file *ledger, const char *path, unsigned seconds)
{
    const struct timespec until = in_seconds(seconds);
    struct stat held;
    *ledger = (struct ledger_file){.file = -1};
    while (open_ledger(ledger, path, &held) && lock(ledger, &until)) {
        if (whole_is_named(ledger->path, &held)) {
            if (read_whole(ledger))
                return true;
            break;
        }
        if (is_past(&until)) {
            whole_fails(ledger->why, "another process has just replaced it");
            break;
        }
        ledger_release(ledger);
        nap();
    }
    ledger_release(ledger);
    return false;
}

bool ledger_keep(struct ledger_file *ledger, const uint8_t *bytes, size_t len)
{
    const struct old_file old = {ledger->file, ledger->path};
    bool kept = whole_replace(&old, bytes, len, &ledger->replaced, ledger->why);
    ledger_release(ledger);
    return kept;
}

bool ledger_create(const char *path, const uint8_t *bytes, size_t len, bool *exists, char why[LEDGER_WHY])
{
    return whole_create(path, LEDGER_MODE, bytes, len, exists, why);
}
