/* What is wrong with a chart, and what is in it. The library decides whether it is right. */
#ifndef CHART_FORM_H
#define CHART_FORM_H

#include "bytes.h"
#include "text.h"

/* Adds the first thing that is wrong with a chart, and where: records and bytes count from 1. False, and nothing is added, where nothing is
 * found. */
bool explain_chart(const struct bytes *chart, struct text *message);

/* How many records a chart has that is right. */
struct chart_counts {
    size_t records; /* of any kind */
    size_t patients, immunizations, not_immunized;
};

struct chart_counts count_chart(const struct bytes *chart);

#endif
