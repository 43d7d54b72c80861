/* Tuulveski: chart records put together field by field, for tuulveski_write.
 *
 * Nothing is cut: a text that is too long for its field, or that the file could not hold, is refused, and from then on the chart takes
 * nothing more and is not whole. So it is enough to look once, before the chart is written. Nothing here has state, and nothing has to be
 * linked.
 *
 * EXAMPLE. A patient with one immunization, as a file:
 *
 *     uint8_t bytes[TUULVESKI_CHART_IP_BYTES + TUULVESKI_CHART_II_BYTES + TUULVESKI_CHART_IE_BYTES], file[1000];
 *     tuulveski_chart chart = tuulveski_chart_in(bytes, sizeof bytes);
 *     tuulveski_chart_add(&chart, TUULVESKI_CHART_IP);
 *     tuulveski_chart_put(&chart, 3, "123456789");
 *     tuulveski_chart_put(&chart, 8, "SMITH");
 *     tuulveski_chart_put(&chart, 9, "JOHN");
 *     tuulveski_chart_put(&chart, 25, "20150301");
 *     tuulveski_chart_add(&chart, TUULVESKI_CHART_II);
 *     tuulveski_chart_put(&chart, 3, "123456789");
 *     tuulveski_chart_put(&chart, 4, "A");
 *     tuulveski_chart_put(&chart, 5, "H");
 *     tuulveski_chart_put(&chart, 6, "20220901");
 *     tuulveski_chart_put(&chart, 8, "TESTV");
 *     tuulveski_chart_add(&chart, TUULVESKI_CHART_IE);
 *     tuulveski_chart_put(&chart, 3, "123456789");
 *     tuulveski_chart_put(&chart, 4, "TESTA");
 *     tuulveski_chart_put(&chart, 5, "1");
 *     if (!chart.is_whole)
 *         return fail("a text does not fit into its field");
 *     tuulveski_written written = tuulveski_write((const uint8_t *)"10", 2, (const uint8_t *)"000001", 6, chart.bytes, chart.length,
 *                                                 file, sizeof file);
 *     if (written.answer != TUULVESKI_WRITTEN)
 *         return fail(tuulveski_answer_text(written.answer));
 *     fwrite(file, 1, written.length, stdout);
 */
#ifndef TUULVESKI_CHART_H
#define TUULVESKI_CHART_H

#include "tuulveski.h"

#define TUULVESKI_CHART_KINDS 5       /* 1 to 5 */
#define TUULVESKI_CHART_FIRST_FIELD 3 /* of every record: type and number are not in a chart */

/* The last field of a kind of record: 27, 22, 5, 8, 4; 0 for a kind that is not known. */
static inline uint32_t tuulveski_chart_last_field(uint32_t kind)
{
    static const uint32_t last[TUULVESKI_CHART_KINDS + 1] = {0, 27, 22, 5, 8, 4};
    return kind <= TUULVESKI_CHART_KINDS ? last[kind] : 0;
}

/* How many bytes a field has in a record of this kind; 0 where there is no such field. */
static inline size_t tuulveski_chart_width(uint32_t kind, uint32_t field)
{
    static const uint16_t widths[TUULVESKI_CHART_KINDS + 1][25] = {
        {0},
        {9, 2, 15, 4, 15, 50, 50, 50, 4, 35, 35, 35, 35, 60, 3, 2, 12, 2, 2, 3, 2, 1, 8, 1, 1},
        {9, 1, 1, 8, 1, 15, 4, 3, 2, 9, 4, 3, 20, 4, 5, 3, 2, 3, 2, 1600},
        {9, 15, 2},
        {9, 1, 8, 3, 4, 2},
        {9, 15},
    };
    if (field < TUULVESKI_CHART_FIRST_FIELD || field > tuulveski_chart_last_field(kind))
        return 0;
    return widths[kind][field - TUULVESKI_CHART_FIRST_FIELD];
}

/* Where a field starts in its record, whose byte of kind is at 0. For a field that is not there this means nothing. */
static inline size_t tuulveski_chart_start(uint32_t kind, uint32_t field)
{
    size_t start = 1;
    for (uint32_t f = TUULVESKI_CHART_FIRST_FIELD; f < field && f <= tuulveski_chart_last_field(kind); f++)
        start += tuulveski_chart_width(kind, f);
    return start;
}

/* How many bytes a record of this kind has, that of kind among them: 437, 1700, 27, 28, 25; 0 for a kind that is not known. */
static inline size_t tuulveski_chart_record_bytes(uint32_t kind)
{
    uint32_t last = tuulveski_chart_last_field(kind);
    return last == 0 ? 0 : tuulveski_chart_start(kind, last + 1);
}

/* A chart that is being put together in an area of the caller's. */
typedef struct {
    uint8_t *bytes;
    size_t room;   /* of the area */
    size_t length; /* of the chart so far: what is to be given to tuulveski_write, if it is whole */
    size_t record; /* where the last record starts */
    bool is_whole; /* nothing was refused */
} tuulveski_chart;

/* A chart without records. */
static inline tuulveski_chart tuulveski_chart_in(uint8_t *bytes, size_t room)
{
    tuulveski_chart chart;
    chart.bytes = bytes;
    chart.room = room;
    chart.length = chart.record = 0;
    chart.is_whole = true;
    return chart;
}

/* Adds a record of this kind, with empty fields. False, and nothing is added, where the kind is not known, the area has no room for it, or
 * something was refused before; the chart is not whole then. */
static inline bool tuulveski_chart_add(tuulveski_chart *chart, uint32_t kind)
{
    size_t bytes = tuulveski_chart_record_bytes(kind);
    if (bytes == 0 || bytes > chart->room - chart->length)
        chart->is_whole = false;
    if (!chart->is_whole)
        return false;
    chart->record = chart->length;
    chart->length += bytes;
    chart->bytes[chart->record] = (uint8_t)kind;
    for (size_t i = 1; i < bytes; i++)
        chart->bytes[chart->record + i] = ' ';
    return true;
}

/* Puts a text into a field of the record that was added last, in the place of what it held. False, and nothing is put, where the record has
 * no such field, the text is longer than the field, it has a pipe or a byte outside 32..126, or something was refused before; the chart is
 * not whole then. Blanks at the ends of a text are not written to the file. */
static inline bool tuulveski_chart_put(tuulveski_chart *chart, uint32_t field, const char *text)
{
    uint32_t kind = chart->length == 0 ? 0 : chart->bytes[chart->record];
    size_t width = tuulveski_chart_width(kind, field), length = 0;
    while (length <= width && text[length] >= 32 && text[length] <= 126 && text[length] != '|')
        length++;
    if (width == 0 || length > width || text[length] != '\0')
        chart->is_whole = false;
    if (!chart->is_whole)
        return false;
    uint8_t *at = chart->bytes + chart->record + tuulveski_chart_start(kind, field);
    for (size_t i = 0; i < width; i++)
        at[i] = i < length ? (uint8_t)text[i] : (uint8_t)' ';
    return true;
}

#endif
