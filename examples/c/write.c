/* The other half of a small charting product: its records, put together field by field, become a submission.
 *
 * usage: write PREFIX BATCH
 *
 * Two events go to standard output, one of them in two lots. The second lot was charted behind the other visit, and is written
 * behind the first all the same. The exit status is 0 where the file is written, 1 where it is not, 2 where the words are not understood.
 *
 * The library is called on the first thread here, which has the stack for it; give a thread that calls it at least 4 MiB. */
#include "tuulveski.h"
#include "tuulveski_chart.h"
#include "tuulveski_words.h"

#include <stdio.h>
#include <string.h>

enum { CHART_ROOM = 10000, FILE_ROOM = 10000 };

static const char ULI[] = "123456789";

static int complain(const char *why)
{
    fprintf(stderr, "%s\n", why);
    return 1;
}

static void chart_patient(tuulveski_chart *chart)
{
    tuulveski_chart_add(chart, TUULVESKI_CHART_IP);
    tuulveski_chart_put(chart, 3, ULI);
    tuulveski_chart_put(chart, 8, "SMITH");
    tuulveski_chart_put(chart, 9, "JOHN");
    tuulveski_chart_put(chart, 25, "20150301");
}

/* A dose of one vaccine from one vial, with its antigen. */
static void chart_dose(tuulveski_chart *chart, const char *date, const char *lot)
{
    tuulveski_chart_add(chart, TUULVESKI_CHART_II);
    tuulveski_chart_put(chart, 3, ULI);
    tuulveski_chart_put(chart, 4, "A");
    tuulveski_chart_put(chart, 6, date);
    tuulveski_chart_put(chart, 8, "TESTV");
    tuulveski_chart_put(chart, 9, "LA");
    tuulveski_chart_put(chart, 10, "IM");
    tuulveski_chart_put(chart, 11, "50");
    tuulveski_chart_put(chart, 12, "0.5");
    tuulveski_chart_put(chart, 13, "ML");
    tuulveski_chart_put(chart, 14, "GSK");
    tuulveski_chart_put(chart, 15, lot);
    tuulveski_chart_add(chart, TUULVESKI_CHART_IE);
    tuulveski_chart_put(chart, 3, ULI);
    tuulveski_chart_put(chart, 4, "TESTA");
    tuulveski_chart_put(chart, 5, "1");
}

int main(int argc, char **argv)
{
    static uint8_t records[CHART_ROOM], file[FILE_ROOM];
    if (argc != 3) {
        fprintf(stderr, "usage: write PREFIX BATCH\n");
        return 2;
    }
    const char *prefix = argv[1], *batch = argv[2];
    tuulveski_chart chart = tuulveski_chart_in(records, sizeof records);
    chart_patient(&chart);
    chart_dose(&chart, "20220901", "L1");
    chart_dose(&chart, "20220902", "M1");
    chart_dose(&chart, "20220901", "L2");
    /* One look is enough: once a record or a text was refused, nothing more was put. */
    if (!chart.is_whole)
        return complain("a record or a text does not fit into the chart");
    tuulveski_written written = tuulveski_write((const uint8_t *)prefix, strlen(prefix), (const uint8_t *)batch, strlen(batch), chart.bytes,
                                                chart.length, file, sizeof file);
    if (written.answer != TUULVESKI_WRITTEN)
        return complain(tuulveski_answer_text(written.answer));
    if (fwrite(file, 1, written.length, stdout) != written.length || fflush(stdout) != 0) {
        perror("standard output");
        return 1;
    }
    return 0;
}
