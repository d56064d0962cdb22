/* The days on which months start. */
#ifndef DAYS_H
#define DAYS_H

#include <stdint.h>

/* The MJD of a month's first day, up to month 2400, walked from January 1972 on. */
static inline uint32_t first_day(uint32_t month)
{
    static const uint8_t length[12] = {31, 28, 31, 30, 31, 30, 31, 31, 30, 31, 30, 31};
    static uint32_t starts[2401] = {41317};
    uint32_t m, year;
    for (m = 0; starts[2400] == 0 && m < 2400; m++) {
        year = 1972 + m / 12;
        starts[m + 1] = starts[m] + length[m % 12]
                        + (m % 12 == 1 && year % 4 == 0 && (year % 100 != 0 || year % 400 == 0));
    }
    return starts[month];
}

/* First days by hand. Months 1, 2, 5, 6 and 7 are 31, 60, 152, 182 and 213 days on
 * from MJD 41317, January 1972; month 11, December, is 366 - 31 days on and month 12
 * 366. Month 599 is 01's. Month 999 is April 2055: 2000-01-01 is MJD 51544, and 55
 * years with 14 leap days and 90 days are 20,179 days. Months 2399 and 2400 are
 * December 2171 and January 2172, which 01 has as MJD 114366. */
enum {
    MONTH_1 = 41348,
    MONTH_2 = 41377,
    MONTH_5 = 41469,
    MONTH_6 = 41499,
    MONTH_7 = 41530,
    MONTH_11 = 41652,
    MONTH_12 = 41683,
    MONTH_599 = 59549,
    MONTH_999 = 71723,
    MONTH_2399 = 114335,
    MONTH_2400 = 114366
};

#endif
