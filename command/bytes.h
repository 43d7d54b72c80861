/* Whole files in memory. */
#ifndef BYTES_H
#define BYTES_H

#include <stdbool.h>
#include <stddef.h>
#include <stdint.h>

/* Bytes in memory of their own. The pointer is not null once they were read, even where there are none. */
struct bytes {
    uint8_t *at;
    size_t len;
};

/* The bytes of a file, `-` being standard input. Of a file that has more than `most` bytes the first most + 1 are read, so that it can be
 * seen that it is too long, whatever its length. False, and said why, where it cannot be read: a folder is no file. */
bool read_file(const char *path, size_t most, struct bytes *read);

void free_bytes(struct bytes *bytes);

#endif
