/* Dates as document 01 has them: eight digits YYYYMMDD, a real day of the years 1800 to 2199. */
#ifndef DATES_H
#define DATES_H

#include <stdbool.h>
#include <stdint.h>

/* Whether these eight bytes are a date. */
bool is_date(const uint8_t *eight);

/* The system's day, by its local time, as a number YYYYMMDD; 0 where it has none. */
uint32_t system_day(void);

#endif
