#define _POSIX_C_SOURCE 200809L
#include "bytes.h"

#include "say.h"

#include <errno.h>
#include <fcntl.h>
#include <stdlib.h>
#include <string.h>
#include <unistd.h>

enum { FIRST_ROOM = 65536 };

/* Twice the room, but not more than is needed. */
static bool grow(struct bytes *read, size_t *room, size_t needed)
{
    size_t more = *room == 0 ? FIRST_ROOM : 2 * *room;
    if (more > needed)
        more = needed;
    uint8_t *at = realloc(read->at, more);
    if (at == NULL)
        return false;
    read->at = at;
    *room = more;
    return true;
}

/* From an open file; `name` is for messages. */
static bool read_open(int file, const char *name, size_t most, struct bytes *read_bytes)
{
    size_t room = 0;
    read_bytes->at = NULL;
    read_bytes->len = 0;
    for (;;) {
        if (read_bytes->len == room && room == most + 1)
            return true;
        if (read_bytes->len == room && !grow(read_bytes, &room, most + 1)) {
            say("%s: there is not enough memory", name);
            break;
        }
        ssize_t got = read(file, read_bytes->at + read_bytes->len, room - read_bytes->len);
        if (got == 0)
            return true;
        if (got < 0 && errno == EINTR)
            continue;
        if (got < 0) {
            say("%s: %s", name, strerror(errno));
            break;
        }
        read_bytes->len += (size_t)got;
    }
    free_bytes(read_bytes);
    return false;
}

bool read_file(const char *path, size_t most, struct bytes *read_bytes)
{
    if (strcmp(path, "-") == 0)
        return read_open(STDIN_FILENO, "standard input", most, read_bytes);
    int file;
    do
        file = open(path, O_RDONLY | O_CLOEXEC);
    while (file < 0 && errno == EINTR);
    if (file < 0) {
        say("%s: %s", path, strerror(errno));
        return false;
    }
    bool whole = read_open(file, path, most, read_bytes);
    close(file);
    return whole;
}

void free_bytes(struct bytes *bytes)
{
    free(bytes->at);
    bytes->at = NULL;
    bytes->len = 0;
}
