/* The batch program of the outside tests: a stream of cases in, a line for each out. Every number of a stream has four bytes, the lowest
 * first, and bytes come behind their length. Lent areas are filled with 0xEE before a call. Hashes are 64-bit FNV-1a, in hex.
 *
 * batch            the check. A case is today; the file, the book and the ledger; the length of the findings area. A line is the eight
 *                  numbers of the answer, and hashes of the ledger after, of the area after, and of what the readers of fields say of
 *                  the file (tests/differential/README.md says what they are asked).
 * batch --write    the writer, and the check of what it writes. A case is today; the prefix, the batch number, the chart, the book and
 *                  the ledger; the length of the lent area. A line is the answer and the length, a hash of the area after, the eight
 *                  numbers that the check answers on the file, and hashes of the ledger and of a findings area of 600 bytes after it.
 *                  Where nothing is written, the check is not called, and its numbers are 0.
 */
#include <inttypes.h>
#include <stdio.h>
#include <stdlib.h>
#include <string.h>

#include "tuulveski.h"

#ifdef SLIP
#include "slips.h"
#define tuulveski_write slipped_write
#endif

/* Bytes lent to the check, each area in a block of its own, so that a tool that watches memory sees an access outside it. */
struct bytes {
    uint8_t *at;
    size_t len;
};

static void stop(const char *why) {
    fprintf(stderr, "batch: %s\n", why);
    exit(2);
}

/* The next number; 0 at the end of the stream. */
static int number(uint32_t *n) {
    uint8_t b[4];
    size_t got = fread(b, 1, 4, stdin);
    if (got == 0) return 0;
    if (got != 4) stop("the stream ends inside a number");
    *n = (uint32_t)b[0] | (uint32_t)b[1] << 8 | (uint32_t)b[2] << 16 | (uint32_t)b[3] << 24;
    return 1;
}

static struct bytes room(size_t len) {
    struct bytes r = {malloc(len ? len : 1), len};
    if (!r.at) stop("no memory");
    return r;
}

static struct bytes part(void) {
    uint32_t n;
    if (!number(&n)) stop("the stream ends inside a case");
    struct bytes r = room(n);
    if (fread(r.at, 1, n, stdin) != n) stop("the stream ends inside a part");
    return r;
}

static uint64_t hash(struct bytes b) {
    uint64_t h = 14695981039346656037u;
    for (size_t i = 0; i < b.len; i++) h = (h ^ b.at[i]) * 1099511628211u;
    return h;
}

/* What the readers are asked of a file, and the hash of what they said so far. */
struct asked {
    struct bytes file;
    size_t lines;
    uint64_t state, said;
};

/* The splitmix64 step. */
static uint64_t any(struct asked *a) {
    uint64_t mixed = a->state += 0x9e3779b97f4a7c15u;
    mixed = (mixed ^ mixed >> 30) * 0xbf58476d1ce4e5b9u;
    mixed = (mixed ^ mixed >> 27) * 0x94d049bb133111ebu;
    return mixed ^ mixed >> 31;
}

/* Mostly a number up to two past the one that is given, else such a one with 2^32 added, any number, or one of the greatest. */
static size_t near(struct asked *a, size_t most) {
    uint64_t kind = any(a) % 8, number = any(a);
    switch (kind) {
    case 0: return (size_t)number;
    case 1: return (size_t)(UINT64_MAX - number % 3);
    case 2: return (size_t)(number % (most + 3) + (UINT64_C(1) << 32));
    default: return (size_t)(number % (most + 3));
    }
}

static void say(struct asked *a, uint64_t number) {
    a->said = (a->said ^ number) * 1099511628211u;
}

static void say_field(struct asked *a, tuulveski_field_at f) {
    say(a, f.present);
    say(a, f.start);
    say(a, f.length);
}

static void ask_pair(struct asked *a) {
    size_t line = near(a, a->lines), field = near(a, 30);
    say_field(a, tuulveski_field(a->file.at, a->file.len, line, field));
}

/* From the first line on so many lines at a time; fields 0 to 29 of some of them. */
static void ask_walk(struct asked *a, size_t width) {
    size_t every = 1 + a->lines / width / 32, met = 0;
    tuulveski_line_at here = TUULVESKI_FIRST_LINE;
    for (; here.start < a->file.len; met++) {
        say(a, here.start);
        for (size_t field = 0; met % every == 0 && field < 30; field++)
            say_field(a, tuulveski_field_from(a->file.at, a->file.len, here.start, field));
        here = tuulveski_line_from(a->file.at, a->file.len, here.start, here.line, here.line + width);
    }
    say(a, here.line);
    say(a, here.start);
}

/* From any place, and from just before an LF. */
static void ask_stray(struct asked *a) {
    size_t start = near(a, a->file.len), number = near(a, a->lines), line = near(a, a->lines), field = near(a, 30);
    if (any(a) % 4 == 0)
        while (start < a->file.len && a->file.at[start] != '\n') start++;
    tuulveski_line_at l = tuulveski_line_from(a->file.at, a->file.len, start, number, line);
    say(a, l.line);
    say(a, l.start);
    say_field(a, tuulveski_field_from(a->file.at, a->file.len, start, field));
}

static uint64_t fields(struct bytes file) {
    struct asked a = {file, 1, hash(file), 0};
    for (size_t i = 0; i < file.len; i++) a.lines += file.at[i] == '\n';
    for (int i = 0; i < 8; i++) ask_pair(&a);
    ask_walk(&a, 1);
    ask_walk(&a, 2 + (size_t)(any(&a) % 2));
    ask_walk(&a, 4 + (size_t)(any(&a) % 29));
    for (int i = 0; i < 16; i++) ask_stray(&a);
    return a.said;
}

/* The last part of a case: the length of an area. */
static struct bytes area(void) {
    uint32_t len;
    if (!number(&len)) stop("the stream ends inside a case");
    struct bytes r = room(len);
    memset(r.at, 0xEE, r.len);
    return r;
}

static void print_answer(tuulveski_answer a) {
    printf("%" PRIu32 " %" PRIu32 " %" PRIu32 " %" PRIu32 " %" PRIu32 " %" PRIu32 " %" PRIu32 " %" PRIu32, a.answer, a.line, a.cause, a.findings,
           a.added, a.changed, a.deleted, a.not_immunized);
}

static tuulveski_answer check(uint32_t today, struct bytes file, struct bytes book, struct bytes ledger, struct bytes findings) {
    return tuulveski_check(today, file.at, file.len, book.at, book.len, ledger.at, ledger.len, findings.at, findings.len);
}

static void check_case(uint32_t today) {
    struct bytes file = part(), book = part(), ledger = part(), findings = area();
    print_answer(check(today, file, book, ledger, findings));
    printf(" %016" PRIx64 " %016" PRIx64 " %016" PRIx64 "\n", hash(ledger), hash(findings), fields(file));
    free(file.at);
    free(book.at);
    free(ledger.at);
    free(findings.at);
}

static void write_case(uint32_t today) {
    struct bytes prefix = part(), batch = part(), chart = part(), book = part(), ledger = part(), out = area();
    uint8_t found[600];
    struct bytes findings = {found, sizeof found};
    memset(found, 0xEE, sizeof found);
    tuulveski_written w =
        tuulveski_write(prefix.at, prefix.len, batch.at, batch.len, chart.at, chart.len, out.at, out.len);
    printf("%" PRIu32 " %" PRIu32 " %016" PRIx64 " ", w.answer, w.length, hash(out));
    tuulveski_answer a = {0, 0, 0, 0, 0, 0, 0, 0};
    struct bytes file = {out.at, w.length < out.len ? w.length : out.len};
    if (w.answer == 0) a = check(today, file, book, ledger, findings);
    print_answer(a);
    printf(" %016" PRIx64 " %016" PRIx64 "\n", hash(ledger), hash(findings));
    free(prefix.at);
    free(batch.at);
    free(chart.at);
    free(book.at);
    free(ledger.at);
    free(out.at);
}

int main(int count, char **words) {
    uint32_t today;
    int is_write = count == 2 && !strcmp(words[1], "--write");
    if (count > 1 && !is_write) stop("batch [--write]");
    while (number(&today)) (is_write ? write_case : check_case)(today);
    return 0;
}
