/* Calls the library on what a folder has, 0 or 1 times. What runs with a call and does not without is the call: `bench/count` counts the
 * instructions of both. An area has ROOM bytes, each 0xEE before the call. Hashes are 64-bit FNV-1a, in hex.
 *
 * count TODAY FOLDER ROOM CALLS    the check of the files `file`, `book` and `ledger`. Prints the answer's eight numbers, all 0 without a
 *                                  call, and hashes of the ledger after and of the findings area after.
 * count write FOLDER ROOM CALLS    the writer on the file `chart`. Prints the answer and the length, and a hash of the area after.
 */
#include <inttypes.h>

#include "lent.h"
#include "tuulveski.h"

static uint64_t hash(struct bytes b) {
    uint64_t h = 14695981039346656037u;
    for (size_t i = 0; i < b.len; i++) h = (h ^ b.at[i]) * 1099511628211u;
    return h;
}

static void print(tuulveski_answer a, uint64_t ledger, uint64_t findings) {
    printf("%" PRIu32 " %" PRIu32 " %" PRIu32 " %" PRIu32 " %" PRIu32 " %" PRIu32 " %" PRIu32 " %" PRIu32 " %016" PRIx64 " %016" PRIx64 "\n", a.answer,
           a.line, a.cause, a.findings, a.added, a.changed, a.deleted, a.not_immunized, ledger, findings);
}

static void check(uint32_t today, const char *folder, struct bytes findings, int is_called) {
    struct bytes file = contents(folder, "file"), book = contents(folder, "book"), ledger = contents(folder, "ledger");
    tuulveski_answer answer = {0, 0, 0, 0, 0, 0, 0, 0};
    if (is_called) answer = tuulveski_check(today, file.at, file.len, book.at, book.len, ledger.at, ledger.len, findings.at, findings.len);
    print(answer, hash(ledger), hash(findings));
}

static void write_file(const char *folder, struct bytes out, int is_called) {
    struct bytes chart = contents(folder, "chart");
    tuulveski_written written = {0, 0};
    if (is_called) written = tuulveski_write(PREFIX, PREFIX_LEN, BATCH, BATCH_LEN, chart.at, chart.len, out.at, out.len);
    printf("%" PRIu32 " %" PRIu32 " %016" PRIx64 "\n", written.answer, written.length, hash(out));
}

int main(int count, char **words) {
    if (count != 5) {
        fputs("count TODAY | write FOLDER ROOM CALLS\n", stderr);
        return 2;
    }
    int is_called = strcmp(words[4], "0") != 0;
    if (!strcmp(words[1], "write"))
        write_file(words[2], area(words[3]), is_called);
    else
        check((uint32_t)strtoul(words[1], NULL, 10), words[2], area(words[3]), is_called);
    return 0;
}
