/* Tuulveski: the check of an immunization submission, and the writing of one from chart records, for charting products in C.
 *
 * Link with libtuulveski.a (x86-64 Linux; `make` writes it, and `pkg-config --cflags --libs tuulveski` finds it once it is installed). It
 * calls memset and memcpy and nothing else: no allocation, no file, no lock, no state between calls. Two threads may call at once as long
 * as what they lend does not overlap. tuulveski_words.h has words for every number that is here, and tuulveski_chart.h puts chart records
 * together field by field.
 *
 * Every input gets an answer: nothing that the caller says of file, book, ledger, chart or date is trusted.
 *
 * STACK. A check takes up to 3.5 MB of the caller's stack, on a file of at most 16,384 bytes 1.2 MB; writing up to 2.4 MB. Give a thread
 * that calls either at least 4 MiB.
 *
 * TIME. On every input the time is near to proportional to the bytes lent, however the file is damaged. To check a file of 5,000,000
 * bytes takes some 35 ms if it is an ordinary one. One that is made to take long took half a second (docs/PERFORMANCE.md), and 0.9 s where
 * two of its blocks name one event as well, for then it is gone through twice.
 *
 * EXAMPLE. The findings are in file order, so that all of them are shown in one pass over the file:
 *
 *     uint8_t found[600];
 *     tuulveski_answer a = tuulveski_check(20220930, file, file_len, book, book_len, ledger, ledger_len, found, sizeof found);
 *     if (a.answer == TUULVESKI_ACCEPTED)
 *         keep(ledger, ledger_len);
 *     tuulveski_line_at here = TUULVESKI_FIRST_LINE;
 *     for (size_t i = 0; i < a.findings && i < sizeof found / TUULVESKI_FINDING_BYTES; i++) {
 *         tuulveski_finding f = tuulveski_finding_at(found, i);
 *         here = tuulveski_line_from(file, file_len, here.start, here.line, f.line);
 *         tuulveski_field_at text = tuulveski_field_from(file, file_len, here.start, f.field);
 *         printf("line %u, field %u, \"%.*s\": %s\n", (unsigned)f.line, (unsigned)f.field, (int)text.length,
 *                (const char *)file + text.start, tuulveski_rule_text(f.rule));
 *     }
 *
 * A whole program, which also keeps a ledger in a file, is in examples/c.
 */
#ifndef TUULVESKI_H
#define TUULVESKI_H

#include <stdbool.h>
#include <stddef.h>
#include <stdint.h>

#ifdef __cplusplus
extern "C" {
#endif

/* The version of this header and of the library that it came with. While the first number is 0, the second one is that of the last change
 * request that is in; with each, callers are to be compiled again, and perhaps altered. */
#define TUULVESKI_VERSION_MAJOR 0
#define TUULVESKI_VERSION_MINOR 3
#define TUULVESKI_VERSION_PATCH 0
#define TUULVESKI_VERSION "0.3.0"

/* The answers of the check. The lowest that applies is given. */
#define TUULVESKI_ACCEPTED 0 /* added, changed, deleted count blocks; not_immunized counts IN records */
#define TUULVESKI_DATE 1     /* today is no date */
#define TUULVESKI_LONG 2     /* the file has more than 5,000,000 bytes */
#define TUULVESKI_BOOK 3     /* the code book is malformed */
#define TUULVESKI_LEDGER 4   /* the ledger is malformed */
#define TUULVESKI_SHAPE 5    /* a fault of shape: line says where, cause says which */
#define TUULVESKI_FINDINGS 6 /* broken rules: findings says how many in all */
#define TUULVESKI_FULL 7     /* the ledger has not the slots for what is live and added less what is deleted */

/* The answers of tuulveski_write. */
#define TUULVESKI_WRITTEN 0 /* length says how long the file is */
#define TUULVESKI_RECORD 8  /* the chart is malformed, or the prefix or the batch number is not of its form */
#define TUULVESKI_ROOM 9    /* the finished file would be longer than the area that is lent for it, or than 5,000,000 bytes */

/* Causes of answer 5. A line ends with LF, or with CR LF. */
#define TUULVESKI_CAUSE_NO_LF 1       /* the line does not end with LF */
#define TUULVESKI_CAUSE_BYTE 2        /* a byte outside 32..126 before the line's end */
#define TUULVESKI_CAUSE_NO_PIPE 3     /* the line does not end in a pipe */
#define TUULVESKI_CAUSE_TYPE 4        /* unknown record type */
#define TUULVESKI_CAUSE_FIELD_COUNT 5 /* wrong number of fields */
#define TUULVESKI_CAUSE_PLACE 6       /* this type may not stand here */
#define TUULVESKI_CAUSE_END 7         /* the file ended before its IF; line is one past the last */

/* Sizes and limits, in bytes unless said otherwise. */
#define TUULVESKI_FILE_MOST 5000000
#define TUULVESKI_BOOK_MOST 262144
#define TUULVESKI_SLOT_BYTES 38
#define TUULVESKI_SLOTS_MOST 100000 /* slots */
#define TUULVESKI_FINDING_BYTES 6

/* The kinds of chart records, and their lengths in bytes, the byte of kind among them. */
#define TUULVESKI_CHART_IP 1 /* patient */
#define TUULVESKI_CHART_II 2 /* immunization */
#define TUULVESKI_CHART_IE 3 /* antigen count */
#define TUULVESKI_CHART_IN 4 /* not immunized */
#define TUULVESKI_CHART_IA 5 /* antigen not administered */
#define TUULVESKI_CHART_IP_BYTES 437
#define TUULVESKI_CHART_II_BYTES 1700
#define TUULVESKI_CHART_IE_BYTES 27
#define TUULVESKI_CHART_IN_BYTES 28
#define TUULVESKI_CHART_IA_BYTES 25

/* BYTES. A date is eight digits YYYYMMDD, a day of the years 1800 to 2199. A code of so many bytes is 1 to that many bytes in 33..126,
 * then blanks.
 *
 * A ledger is slots of 38 bytes, first the live ones, which ascend strictly by their bytes, then the free ones:
 *
 *     live   1, ULI (nine digits), date (8), vaccine (code of 20)
 *     free   38 zero bytes
 *
 * A book is entries, each one byte of kind and then codes and dates, in ascending order of kind and codes, none twice. An end is a date,
 * or 99999999 where the code has no end:
 *
 *     1 vaccine                 code 20, start 8, end 8
 *     2 antigen                 code 20, end 8
 *     3 reason                  two digits, end 8
 *     4 manufacturer            code 3, end 8
 *     5 dosage type             code 4, end 8
 *     6 reason not immunized    code 3, end 8
 *     7 vaccine with reason     code 20, two digits, end 8
 *     8 vaccine with antigen    code 20, code 20, end 8
 *
 * `tuulveski book make` makes one from a text. A finding is six bytes: the rule; the line as four bytes, the lowest first; the field.
 *
 * A chart is records, one after the other: one byte of kind, then the fields from field 3 on, each in so many bytes, padded with blanks
 * (the guideline's printed lengths; a dosage has 9):
 *
 *     1 IP   3 to 27:  9 2 15 4 15  50 50 50 4  35 35 35 35 60  3 2 12  2 2 3 2 1  8 1 1
 *     2 II   3 to 22:  9 1 1 8 1 15  4 3 2 9 4 3 20  4 5 3 2 3 2 1600
 *     3 IE   3 to 5:   9 15 2
 *     4 IN   3 to 8:   9 1 8 3 4 2
 *     5 IA   3 to 4:   9 15
 *
 * All their bytes but that of kind are in 32..126, and none is a pipe. They are in the guideline's order: patients, each an IP, then any
 * number of II with at least one IE each, then any number of IN with at least one IA each, at least one II or IN in all. A chart of no
 * bytes, without a patient, is right too. */

/* An answer. Numbers that are not named for it above are 0. Lines count from 1. */
typedef struct {
    uint32_t answer, line, cause, findings, added, changed, deleted, not_immunized;
} tuulveski_answer;

/* The check.
 *
 * today     a number YYYYMMDD.
 * file      the submission; only read.
 * book      the code book; only read. It may be empty. A code or pair that ended before today is in force for an II and its IE only
 *           where II 5 is H, in changes and deletes too: an event added in time needs H once a code or pair of it has ended.
 * ledger    the live events. It alters only at answer 0, and is then the ledger to lend next time. A new ledger is all zeros, 38 bytes
 *           for each event that it is to hold.
 * findings  an area of any length for findings. It alters only at answer 6: it gets as many whole findings from the start of the
 *           list as fit, and its other bytes stay. The list is by line, field, rule.
 *
 * The caller owes: each pointer is not null, even where its length is 0, and points to as many bytes as are said; ledger and
 * findings overlap neither each other nor file or book. tuulveski_check_nullable, below, takes null for length 0. */
tuulveski_answer tuulveski_check(uint32_t today, const uint8_t *file, size_t file_len, const uint8_t *book, size_t book_len,
                                 uint8_t *ledger, size_t ledger_len, uint8_t *findings, size_t findings_len);

/* What writing comes to. The length is 0 at any other answer than 0. */
typedef struct {
    uint32_t answer, length;
} tuulveski_written;

/* Writes a submission from chart records.
 *
 * prefix    the submitter prefix (IH 2): 1 to 3 letters or digits.
 * batch     the batch number (IH 3): 1 to 10 letters or digits. Both are texts without an end, and go into the file as they come: one that
 *           is padded is RECORD.
 * chart     the records; only read. It may be empty, and of any length.
 * out       an area for the file. TUULVESKI_FILE_MOST bytes are enough for every file that is written; with fewer, ROOM may mean no
 *           more than that the area is too short.
 *
 * The file is IV|7.2|, IH|prefix|batch|, a line for each record, and IF|count|0|, each ended by LF alone. The count is that of all lines,
 * these three among them. A field is written without the blanks at both its ends: inside they stay, and a field of blanks is empty. Under
 * each patient record, by itself, the lots of one event are brought together: an immunization whose fields 3, 4, 6 and 8 are, as written,
 * those of an earlier one goes with its antigen counts behind the last of these. All else keeps its order; no record is left out or
 * changed. Then the records are numbered from 1. If there are at most 99,999 and they break no rule in that order, the check has no
 * finding in the file.
 *
 * RECORD    prefix or batch is not of its form, or the chart is not as BYTES has it: an unknown kind, a record cut short, a byte that may
 *           not be there, a record out of order, or a last one that asks for another. It comes before ROOM.
 * ROOM      else, exactly if the finished file is longer than `out` or than TUULVESKI_FILE_MOST.
 *
 * At both no byte of `out` alters. At 0 the first `length` bytes are the file, and the bytes past it stay as they were.
 *
 * The caller owes: no pointer is null, even where its length is 0, and each points to as many bytes as are said; `out` overlaps none of the
 * other three. tuulveski_write_nullable, below, takes null for length 0.
 *
 * What may surprise:
 *   - What a record holds is not judged here, only its bytes: check the file before it is sent.
 *   - The footer has not the figures that the registry asks for, which counts other lines and wants a checksum: put them there first.
 *   - A vaccine or antigen code of 16 to 20 bytes can be checked, but has no room in a chart. Never cut one.
 *   - More than 99,999 records are written, and then refused by the check, since a record number has at most 5 digits.
 *   - Two IP records of one patient keep their lots apart: an event under both breaks rule 15.
 *   - The version is written as 7.2, which the check asks for. */
tuulveski_written tuulveski_write(const uint8_t *prefix, size_t prefix_len, const uint8_t *batch, size_t batch_len, const uint8_t *chart,
                                  size_t chart_len, uint8_t *out, size_t out_len);

/* A field of a file: whether it is there, and the part of the file that is its text. A field is a text that a pipe ends within its line:
 * the line "a|b" has one. Of a field that is not there start and length are 0; an empty field is present with length 0. */
typedef struct {
    bool present;
    size_t start, length;
} tuulveski_field_at;

/* Field `field` of line `line`, both from 1, in a file of any shape: for display. The pointer must not be null. The file is read from its
 * start; for many lines of one file the two functions below go on where they are. */
tuulveski_field_at tuulveski_field(const uint8_t *file, size_t file_len, size_t line, size_t field);

/* A line of a file: its number, from 1, and where in the file it starts. */
typedef struct {
    size_t line, start;
} tuulveski_line_at;

/* The first line of every file (in C++ from C++11 on). */
#ifdef __cplusplus
#define TUULVESKI_FIRST_LINE (tuulveski_line_at{1, 0})
#else
#define TUULVESKI_FIRST_LINE ((tuulveski_line_at){1, 0})
#endif

/* Line `line`, found by going on from line `number`, which starts at `start`. The bytes between the two are read once. Where the file ends
 * before that line, its start is the file's length: a line is there exactly if its start is below that. From a line that is not before
 * `line`, that line itself comes back: it never goes back. Any numbers may be given: where `start` is not the start of line `number`, lines
 * are counted from there all the same, and a start past the file's end stays. The pointer must not be null. */
tuulveski_line_at tuulveski_line_from(const uint8_t *file, size_t file_len, size_t start, size_t number, size_t line);

/* Field `field`, from 1, of the line that starts at `start`. No other line is read. The pointer must not be null. */
tuulveski_field_at tuulveski_field_from(const uint8_t *file, size_t file_len, size_t start, size_t field);

/* A finding: which rule is broken at which field of which line. */
typedef struct {
    uint32_t line, field, rule;
} tuulveski_finding;

/* Finding i, from 0, of an area that answer 6 left. */
static inline tuulveski_finding tuulveski_finding_at(const uint8_t *findings, size_t i)
{
    const uint8_t *p = findings + i * TUULVESKI_FINDING_BYTES;
    tuulveski_finding f;
    f.rule = p[0];
    f.line = (uint32_t)p[1] | (uint32_t)p[2] << 8 | (uint32_t)p[3] << 16 | (uint32_t)p[4] << 24;
    f.field = p[5];
    return f;
}

/* tuulveski_check, with null allowed where a length is 0. */
static inline tuulveski_answer tuulveski_check_nullable(uint32_t today, const uint8_t *file, size_t file_len, const uint8_t *book,
                                                        size_t book_len, uint8_t *ledger, size_t ledger_len, uint8_t *findings,
                                                        size_t findings_len)
{
    uint8_t none[4] = {0, 0, 0, 0};
    return tuulveski_check(today, file_len ? file : none, file_len, book_len ? book : none + 1, book_len,
                           ledger_len ? ledger : none + 2, ledger_len, findings_len ? findings : none + 3, findings_len);
}

/* tuulveski_write, with null allowed where a length is 0. */
static inline tuulveski_written tuulveski_write_nullable(const uint8_t *prefix, size_t prefix_len, const uint8_t *batch, size_t batch_len,
                                                         const uint8_t *chart, size_t chart_len, uint8_t *out, size_t out_len)
{
    uint8_t none[4] = {0, 0, 0, 0};
    return tuulveski_write(prefix_len ? prefix : none, prefix_len, batch_len ? batch : none + 1, batch_len, chart_len ? chart : none + 2,
                           chart_len, out_len ? out : none + 3, out_len);
}

#ifdef __cplusplus
}
#endif

#endif
