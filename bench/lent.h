/* What count.c and stack.c lend to the library: the files of a folder, a prefix and a batch number, and an area for findings or for a file. */
#include <stdint.h>
#include <stdio.h>
#include <stdlib.h>
#include <string.h>

#define PREFIX ((const uint8_t *)"10")
#define PREFIX_LEN 2
#define BATCH ((const uint8_t *)"000001")
#define BATCH_LEN 6

struct bytes {
    uint8_t *at;
    size_t len;
};

static void stop(const char *path, const char *why) {
    fprintf(stderr, "bench: %s: %s\n", path, why);
    exit(2);
}

/* The bytes of a file, never at a null pointer. */
static struct bytes contents(const char *folder, const char *name) {
    char path[4096];
    if (snprintf(path, sizeof path, "%s/%s", folder, name) >= (int)sizeof path) stop(name, "its path is too long");
    FILE *file = fopen(path, "rb");
    if (!file || fseek(file, 0, SEEK_END)) stop(path, "cannot be opened");
    size_t len = (size_t)ftell(file);
    rewind(file);
    struct bytes read = {malloc(len + 1), len};
    if (!read.at) stop(path, "no memory");
    if (fread(read.at, 1, len, file) != len) stop(path, "cannot be read");
    fclose(file);
    return read;
}

/* An area of so many bytes as a word says, each 0xEE. */
static struct bytes area(const char *word) {
    size_t len = strtoul(word, NULL, 10);
    struct bytes lent = {malloc(len + 1), len};
    if (!lent.at) stop("area", "no memory");
    memset(lent.at, 0xEE, len);
    return lent;
}
