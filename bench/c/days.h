/* The Gregorian calendar. */
#ifndef DAYS_H
#define DAYS_H

#include <fenderrope.h>

static inline int is_leap(size_t year) { return year % 4 == 0 && (year % 100 != 0 || year % 400 == 0); }

static inline size_t days_in(size_t month, size_t year) {
    static const uint8_t days[] = {31, 28, 31, 30, 31, 30, 31, 31, 30, 31, 30, 31};
    return month == 2 && is_leap(year) ? 29 : days[month - 1];
}

static inline int is_day(fr_date d) {
    return d.month >= 1 && d.month <= 12 && d.year >= 1 && d.year <= 9999 && d.day >= 1 && d.day <= days_in(d.month, d.year);
}

#endif
