#define _POSIX_C_SOURCE 200809L
#include "dates.h"

#include <stddef.h>
#include <time.h>

enum { FIRST_YEAR = 1800, LAST_YEAR = 2199, TM_FIRST_YEAR = 1900 };

static unsigned number(const uint8_t *digits, size_t count)
{
    unsigned n = 0;
    for (size_t i = 0; i < count; i++)
        n = 10 * n + (unsigned)(digits[i] - '0');
    return n;
}

static unsigned days_of(unsigned year, unsigned month)
{
    static const unsigned char DAYS[] = {31, 28, 31, 30, 31, 30, 31, 31, 30, 31, 30, 31};
    bool leap = year % 4 == 0 && (year % 100 != 0 || year % 400 == 0);
    return DAYS[month - 1] + (month == 2 && leap ? 1u : 0u);
}

bool is_date(const uint8_t *eight)
{
    for (size_t i = 0; i < 8; i++)
        if (eight[i] < '0' || eight[i] > '9')
            return false;
    unsigned year = number(eight, 4), month = number(eight + 4, 2), day = number(eight + 6, 2);
    return year >= FIRST_YEAR && year <= LAST_YEAR && month >= 1 && month <= 12 && day >= 1 && day <= days_of(year, month);
}

uint32_t system_day(void)
{
    time_t now = time(NULL);
    struct tm day;
    if (now == (time_t)-1 || localtime_r(&now, &day) == NULL)
        return 0;
    return (uint32_t)((day.tm_year + TM_FIRST_YEAR) * 10000 + (day.tm_mon + 1) * 100 + day.tm_mday);
}
