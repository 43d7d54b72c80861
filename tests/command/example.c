/* A program around the loop of the EXAMPLE in tuulveski.h, which tests/command/header cuts out of its comment into loop.inc:
 * example FILE BOOK, on a new ledger of two slots. */
#include "tuulveski.h"
#include "tuulveski_words.h"
#include <stdio.h>
static uint8_t file[100000], book[1000], ledger[76];
static size_t read_all(const char *path, uint8_t *to, size_t most)
{
    FILE *f = fopen(path, "rb");
    size_t got = f ? fread(to, 1, most, f) : 0;
    if (f)
        fclose(f);
    return got;
}
static void keep(const uint8_t *bytes, size_t length)
{
    printf("kept %u of %u\n", (unsigned)bytes[0], (unsigned)length);
}
int main(int count, char **words)
{
    size_t file_len = count > 1 ? read_all(words[1], file, sizeof file) : 0;
    size_t book_len = count > 2 ? read_all(words[2], book, sizeof book) : 0, ledger_len = sizeof ledger;
#include "loop.inc"
    return 0;
}
