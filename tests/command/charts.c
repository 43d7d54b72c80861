/* A program around the EXAMPLE in tuulveski_chart.h, which tests/command/header cuts out of its comment into chart.inc; without words it
 * prints what that writes. `charts widths` prints kind, field, width and start of every field, and the bytes of every record, as the header
 * has them; `charts refused` tries what must be refused, and prints a line `wrong` for what is not. */
#include "tuulveski_chart.h"
#include "tuulveski_words.h"
#include <stdio.h>
#include <string.h>

static int fail(const char *why)
{
    printf("%s\n", why);
    return 1;
}

static int example(void)
{
#include "chart.inc"
    return 0;
}

static int widths(void)
{
    static const size_t bytes[] = {0, TUULVESKI_CHART_IP_BYTES, TUULVESKI_CHART_II_BYTES, TUULVESKI_CHART_IE_BYTES,
                                   TUULVESKI_CHART_IN_BYTES, TUULVESKI_CHART_IA_BYTES};
    static const uint32_t kinds[] = {0, TUULVESKI_CHART_IP, TUULVESKI_CHART_II, TUULVESKI_CHART_IE, TUULVESKI_CHART_IN, TUULVESKI_CHART_IA};
    for (uint32_t k = 1; k <= TUULVESKI_CHART_KINDS; k++) {
        printf("record\t%u\t%u\t%u\t%u\n", (unsigned)kinds[k], (unsigned)bytes[k], (unsigned)tuulveski_chart_record_bytes(k),
               (unsigned)tuulveski_chart_last_field(k));
        for (uint32_t f = 0; f < 300; f++)
            if (tuulveski_chart_width(k, f) != 0)
                printf("field\t%u\t%u\t%u\t%u\n", (unsigned)k, (unsigned)f, (unsigned)tuulveski_chart_width(k, f),
                       (unsigned)tuulveski_chart_start(k, f));
    }
    return 0;
}

static void hold(const char *what, bool is_so)
{
    if (!is_so)
        printf("wrong\t%s\n", what);
}

/* A text that is to be refused in a field of a new record: nothing alters, and the chart stays refused. */
static void refuse(const char *what, uint32_t kind, uint32_t field, const char *text)
{
    uint8_t bytes[TUULVESKI_CHART_II_BYTES * 2], before[sizeof bytes];
    memset(bytes, '#', sizeof bytes);
    tuulveski_chart chart = tuulveski_chart_in(bytes, sizeof bytes);
    hold(what, tuulveski_chart_add(&chart, kind) && tuulveski_chart_put(&chart, 3, "123456789") && chart.is_whole);
    memcpy(before, bytes, sizeof bytes);
    hold(what, !tuulveski_chart_put(&chart, field, text) && !chart.is_whole);
    hold(what, !tuulveski_chart_put(&chart, 3, "987654321") && !tuulveski_chart_add(&chart, kind) && !chart.is_whole);
    hold(what, memcmp(before, bytes, sizeof bytes) == 0 && chart.length == tuulveski_chart_record_bytes(kind));
}

static void refuse_texts(void)
{
    char text[1700];
    memset(text, 'x', sizeof text);
    for (uint32_t k = 1; k <= TUULVESKI_CHART_KINDS; k++)
        for (uint32_t f = TUULVESKI_CHART_FIRST_FIELD; f <= tuulveski_chart_last_field(k); f++) {
            text[tuulveski_chart_width(k, f) + 1] = '\0';
            refuse("a text that is one byte too long", k, f, text);
            text[tuulveski_chart_width(k, f) + 1] = 'x';
        }
    refuse("a vaccine of 16 bytes", TUULVESKI_CHART_II, 8, "ABCDEFGHIJKLMNOP");
    refuse("blanks that are too many", TUULVESKI_CHART_IE, 5, "1  ");
    refuse("a pipe", TUULVESKI_CHART_II, 8, "A|B");
    refuse("a pipe at the end", TUULVESKI_CHART_II, 8, "AB|");
    refuse("a byte below 32", TUULVESKI_CHART_IP, 8, "A\x1f");
    refuse("a byte above 126", TUULVESKI_CHART_IP, 8, "\x7f");
    refuse("a letter with an accent", TUULVESKI_CHART_IP, 8, "\xc3\xa9");
    refuse("field 0", TUULVESKI_CHART_IP, 0, "");
    refuse("field 2", TUULVESKI_CHART_IP, 2, "1");
    refuse("a field past the last", TUULVESKI_CHART_IA, 5, "");
    refuse("a field that is far past it", TUULVESKI_CHART_II, 4294967295u, "A");
}

static void refuse_records(void)
{
    uint8_t bytes[TUULVESKI_CHART_IE_BYTES * 2];
    memset(bytes, '#', sizeof bytes);
    tuulveski_chart chart = tuulveski_chart_in(bytes, sizeof bytes - 1);
    hold("a field of no record", !tuulveski_chart_put(&chart, 3, "1") && !chart.is_whole);
    chart = tuulveski_chart_in(bytes, sizeof bytes - 1);
    hold("kind 0", !tuulveski_chart_add(&chart, 0) && !chart.is_whole);
    chart = tuulveski_chart_in(bytes, sizeof bytes - 1);
    hold("kind 6", !tuulveski_chart_add(&chart, 6) && !chart.is_whole);
    chart = tuulveski_chart_in(bytes, sizeof bytes - 1);
    hold("kind 257", !tuulveski_chart_add(&chart, 257) && !chart.is_whole && chart.length == 0);
    chart = tuulveski_chart_in(bytes, sizeof bytes - 1);
    hold("the first record", tuulveski_chart_add(&chart, TUULVESKI_CHART_IE) && chart.is_whole);
    hold("a record that is a byte too long", !tuulveski_chart_add(&chart, TUULVESKI_CHART_IE) && !chart.is_whole);
    hold("bytes past the chart", bytes[TUULVESKI_CHART_IE_BYTES] == '#' && chart.length == TUULVESKI_CHART_IE_BYTES);
    chart = tuulveski_chart_in(bytes, sizeof bytes);
    hold("two records", tuulveski_chart_add(&chart, TUULVESKI_CHART_IE) && tuulveski_chart_add(&chart, TUULVESKI_CHART_IE) && chart.is_whole);
    hold("a field put twice", tuulveski_chart_put(&chart, 4, "FIFTEEN BYTES +") && tuulveski_chart_put(&chart, 4, " B ") && chart.is_whole);
    hold("its bytes", memcmp(bytes + 27, "\3          B               ", 27) == 0 && memcmp(bytes, "\3                          ", 27) == 0);
    hold("a width without a kind", tuulveski_chart_width(0, 3) == 0 && tuulveski_chart_width(6, 3) == 0 && tuulveski_chart_width(4294967295u, 3) == 0);
    hold("bytes without a kind", tuulveski_chart_record_bytes(0) == 0 && tuulveski_chart_record_bytes(6) == 0);
}

/* What the library answers beside 0, and that it leaves the area then. */
static void refuse_charts(void)
{
    uint8_t bytes[TUULVESKI_CHART_IP_BYTES], out[26];
    const uint8_t *ten = (const uint8_t *)"10", *one = (const uint8_t *)"1";
    memset(out, '#', sizeof out);
    tuulveski_chart chart = tuulveski_chart_in(bytes, sizeof bytes);
    tuulveski_written none = tuulveski_write(ten, 2, one, 1, bytes, 0, out, 24), empty = tuulveski_write(ten, 2, one, 1, bytes, 0, out, 0);
    hold("no room", none.answer == TUULVESKI_ROOM && none.length == 0 && empty.answer == TUULVESKI_ROOM && empty.length == 0);
    hold("a patient alone", tuulveski_chart_add(&chart, TUULVESKI_CHART_IP) &&
         tuulveski_write(ten, 2, one, 1, bytes, chart.length, out, sizeof out).answer == TUULVESKI_RECORD);
    hold("no prefix", tuulveski_write(ten, 0, one, 1, bytes, 0, out, 0).answer == TUULVESKI_RECORD);
    hold("no batch number", tuulveski_write(ten, 2, one, 0, bytes, 0, out, sizeof out).answer == TUULVESKI_RECORD);
    hold("the area", memcmp(out, "##########################", sizeof out) == 0);
    none = tuulveski_write_nullable(NULL, 0, NULL, 0, NULL, 0, NULL, 0);
    hold("null for a prefix", none.answer == TUULVESKI_RECORD && none.length == 0);
    none = tuulveski_write_nullable(ten, 2, one, 1, NULL, 0, NULL, 0);
    hold("null for chart and area", none.answer == TUULVESKI_ROOM && none.length == 0);
    hold("null for a chart", tuulveski_write_nullable(ten, 2, one, 1, NULL, 0, out, 25).length == 25);
    memset(out, '#', sizeof out);
    none = tuulveski_write(ten, 2, one, 1, bytes, 0, out, sizeof out);
    hold("a chart of no bytes", none.answer == TUULVESKI_WRITTEN && none.length == 25 && memcmp(out, "IV|7.2|\nIH|10|1|\nIF|3|0|\n#", 26) == 0);
}

int main(int count, char **words)
{
    if (count == 1)
        return example();
    if (strcmp(words[1], "widths") == 0)
        return widths();
    refuse_texts();
    refuse_records();
    refuse_charts();
    return 0;
}
