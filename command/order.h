/* The order of records in a file and in a chart, in words. */
#ifndef ORDER_H
#define ORDER_H

#include "text.h"

#include <stdbool.h>

/* "Patient (IP)" */
void add_record(struct text *message, uint32_t record);

/* A record that may not stand after the one above it; above is 0 at the start of the file. */
void explain_place(struct text *message, uint32_t record, uint32_t above);

/* A file that ends after a record that is not its IF. */
void explain_end(struct text *message, uint32_t above);

/* Whether a record may stand after another one; a chart's first one stands after IH, and at its end IF may stand. */
bool may_follow_in_chart(uint32_t record, uint32_t above);

/* A record of a chart that may not stand after the one above it; above is IH at the start of the chart. */
void explain_chart_place(struct text *message, uint32_t record, uint32_t above);

/* A chart that ends after a record which asks for another. */
void explain_chart_end(struct text *message, uint32_t above);

#endif
