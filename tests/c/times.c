/* The five questions of leap.h at their edges. The expected values stand here as
 * 01 and request 10/14 give them, or are worked out beside them from their rules. */
#include "lent.h"

static leap_schedule asked;

/* The schedule asked, lent, and the check that it stays. */
static leap_schedule *lent(void) { return last_copy(in_area, &asked, sizeof asked); }

static void stays(const char *name, const leap_schedule *s)
{
    same(name, "an input word", memcmp(s, &asked, sizeof asked) != 0, 0);
}

static void dtai(uint64_t mjd, uint8_t number, int32_t want)
{
    leap_schedule *s = lent();
    int32_t *got = last(one_area, sizeof *got);
    same("dtai", "number", leap_dtai(s, mjd, got), number);
    same("dtai", "DTAI", (uint64_t)*got, (uint64_t)want);
    stays("dtai", s);
    untouched("dtai", one_area, sizeof *got);
}

typedef uint8_t of_a_day(const leap_schedule *, uint64_t, uint64_t, uint64_t *);

static void of_day(of_a_day *ask, const char *name, uint64_t mjd, uint64_t time,
                   uint8_t number, uint64_t want)
{
    leap_schedule *s = lent();
    uint64_t *got = last(one_area, sizeof *got);
    same(name, "number", ask(s, mjd, time, got), number);
    same(name, "answer", *got, want);
    stays(name, s);
    untouched(name, one_area, sizeof *got);
}

static void tai(uint64_t mjd, uint64_t micros, uint8_t number, uint64_t want)
{
    of_day(leap_utc_to_tai, "utc_to_tai", mjd, micros, number, want);
}

static void uts(uint64_t mjd, uint64_t micros, uint8_t number, uint64_t want)
{
    of_day(leap_utc_to_uts, "utc_to_uts", mjd, micros, number, want);
}

static void unsmooth(uint64_t mjd, uint64_t nanos, uint8_t number, uint64_t want)
{
    of_day(leap_uts_to_utc, "uts_to_utc", mjd, nanos, number, want);
}

static void utc(uint64_t tai_micros, uint8_t number, uint64_t want_mjd, uint64_t want_micros)
{
    leap_schedule *s = lent();
    uint64_t *mjd = last(one_area, sizeof *mjd), *micros = last(two_area, sizeof *micros);
    same("tai_to_utc", "number", leap_tai_to_utc(s, tai_micros, mjd, micros), number);
    same("tai_to_utc", "MJD", *mjd, want_mjd);
    same("tai_to_utc", "microseconds", *micros, want_micros);
    stays("tai_to_utc", s);
    untouched("tai_to_utc", one_area, sizeof *mjd);
    untouched("tai_to_utc", two_area, sizeof *micros);
}

static void dates(void)
{
    static const leap_second minus[11] = {{1, 1}, {2, 1}, {3, 1}, {4, 1},  {5, 1}, {6, 1},
                                          {7, 1}, {8, 1}, {9, 1}, {10, 1}, {11, 1}};
    static const leap_second far[2] = {{999, 0}, {1998, 0}};
    begin("times: dtai");
    asked = list_b();
    dtai(41316, LEAP_BEFORE_1972, 0);
    dtai(0, LEAP_BEFORE_1972, 0);
    dtai(41317, LEAP_OK, 10);
    dtai(41498, LEAP_OK, 10);
    dtai(41499, LEAP_OK, 11);
    dtai(57753, LEAP_OK, 36);
    dtai(57754, LEAP_OK, 37);
    dtai(59548, LEAP_OK, 37);
    dtai(59549, LEAP_NOT_KNOWN, 0);
    dtai(UINT64_MAX, LEAP_NOT_KNOWN, 0);
    asked = list_n();
    dtai(41498, LEAP_OK, 10);
    dtai(41499, LEAP_OK, 9);
    /* Eleven leaps down from 10; month 11 is December 1972, MJD 41652. */
    asked = schedule(11, minus, MONTH_12);
    dtai(41651, LEAP_OK, 0);
    dtai(41652, LEAP_OK, -1);
    /* Up to January 2172, MJD 114366. */
    asked = schedule(2, far, MONTH_2400);
    dtai(114365, LEAP_OK, 12);
    dtai(114366, LEAP_NOT_KNOWN, 0);
    end();
}

/* MJD 41498 is day 181, 15,638,400 s from the start of 1972. */
static void tai_and_utc(void)
{
    begin("times: utc_to_tai and tai_to_utc at an inserted second");
    asked = list_plus();
    tai(41317, 0, LEAP_OK, 10000000);
    utc(10000000, LEAP_OK, 41317, 0);
    utc(9999999, LEAP_BEFORE_1972, 0, 0);
    utc(0, LEAP_BEFORE_1972, 0, 0);
    tai(41498, U(86399999999), LEAP_OK, U(15724809999999));
    utc(U(15724809999999), LEAP_OK, 41498, U(86399999999));
    tai(41498, U(86400000000), LEAP_OK, U(15724810000000));
    utc(U(15724810000000), LEAP_OK, 41498, U(86400000000));
    tai(41498, U(86400999999), LEAP_OK, U(15724810999999));
    utc(U(15724810999999), LEAP_OK, 41498, U(86400999999));
    tai(41499, 0, LEAP_OK, U(15724811000000));
    utc(U(15724811000000), LEAP_OK, 41499, 0);
    tai(41498, U(86401000000), LEAP_NO_INSTANT, 0);
    tai(41497, U(86400000000), LEAP_NO_INSTANT, 0);
    end();

    begin("times: utc_to_tai and tai_to_utc at a deleted second");
    asked = list_n();
    tai(41498, U(86398999999), LEAP_OK, U(15724808999999));
    utc(U(15724808999999), LEAP_OK, 41498, U(86398999999));
    tai(41498, U(86399000000), LEAP_NO_INSTANT, 0);
    tai(41499, 0, LEAP_OK, U(15724809000000));
    utc(U(15724809000000), LEAP_OK, 41499, 0);
    end();

    /* Z of 6+5? is MJD 41651, 28,857,600 s from the start of 1972. */
    begin("times: utc_to_tai and tai_to_utc on the last day");
    asked = list_plus();
    tai(41651, U(86398999999), LEAP_OK, U(28944009999999));
    utc(U(28944009999999), LEAP_OK, 41651, U(86398999999));
    tai(41651, U(86399000000), LEAP_NOT_KNOWN, 0);
    utc(U(28944010000000), LEAP_NOT_KNOWN, 0, 0);
    utc(UINT64_MAX, LEAP_NOT_KNOWN, 0, 0);
    tai(41651, U(86400999999), LEAP_NOT_KNOWN, 0);
    tai(41651, U(86401000000), LEAP_NO_INSTANT, 0);
    tai(41652, 0, LEAP_NOT_KNOWN, 0);
    tai(41652, U(86401000000), LEAP_NO_INSTANT, 0);
    tai(UINT64_MAX, UINT64_MAX, LEAP_NO_INSTANT, 0);
    tai(41316, UINT64_MAX, LEAP_BEFORE_1972, 0);
    /* 86,400 x 18,231 + 85,399 + 37 seconds */
    asked = list_b();
    tai(59548, U(85399000000), LEAP_OK, U(1575243836000000));
    end();
}

static void smoothed(void)
{
    begin("times: utc_to_uts on P10 to P12");
    asked = list_plus();
    uts(41498, U(86400000000), LEAP_OK, U(86399001000000));
    uts(41498, U(85401000000), LEAP_OK, U(85401000000000));
    uts(41498, U(85402000000), LEAP_OK, U(85401999000000));
    asked = list_n();
    uts(41498, U(86398000000), LEAP_OK, U(86398999000000));
    uts(41498, U(86399000000), LEAP_NO_INSTANT, 0);
    end();

    /* One microsecond after 23:43:21 and 23:43:19, one nanosecond slower or
     * faster; at 23:43:20 before a deleted second, one millisecond ahead. */
    begin("times: utc_to_uts where the smoothing starts");
    asked = list_plus();
    uts(41498, U(85401000001), LEAP_OK, U(85401000000999));
    uts(41498, 0, LEAP_OK, 0);
    asked = list_n();
    uts(41498, U(85399000000), LEAP_OK, U(85399000000000));
    uts(41498, U(85399000001), LEAP_OK, U(85399000001001));
    uts(41498, U(85400000000), LEAP_OK, U(85400001000000));
    end();

    begin("times: utc_to_uts on the last day, and its refusals");
    asked = list_b();
    uts(59548, U(85398999999), LEAP_OK, U(85398999999000));
    uts(59548, U(85399000000), LEAP_NOT_KNOWN, 0);
    uts(59548, U(86400999999), LEAP_NOT_KNOWN, 0);
    uts(59548, U(86401000000), LEAP_NO_INSTANT, 0);
    uts(59549, 0, LEAP_NOT_KNOWN, 0);
    uts(41316, UINT64_MAX, LEAP_BEFORE_1972, 0);
    uts(41317, U(86400000000), LEAP_NO_INSTANT, 0);
    end();

    /* The last microsecond before P10's instant has 1000 t less 1e9 - 1,000,001
     * nanoseconds, 86,399,000,999,001; the last of that day 86,399,999,999,001. */
    begin("times: uts_to_utc");
    asked = list_plus();
    unsmooth(41498, U(86399001000000), LEAP_OK, U(86400000000));
    unsmooth(41498, U(86399000999999), LEAP_OK, U(86399999999));
    unsmooth(41498, U(86399000999001), LEAP_OK, U(86399999999));
    unsmooth(41498, U(86399000999000), LEAP_OK, U(86399999998));
    unsmooth(41498, U(86399999999999), LEAP_OK, U(86400999999));
    unsmooth(41498, 0, LEAP_OK, 0);
    unsmooth(41498, 999, LEAP_OK, 0);
    unsmooth(41498, 1000, LEAP_OK, 1);
    unsmooth(41497, U(86399999999999), LEAP_OK, U(86399999999));
    unsmooth(41497, U(86400000000000), LEAP_NO_INSTANT, 0);
    asked = list_n();
    unsmooth(41498, U(86398999000000), LEAP_OK, U(86398000000));
    unsmooth(41498, U(86399999999999), LEAP_OK, U(86398999999));
    asked = list_b();
    unsmooth(59548, U(85398999999999), LEAP_OK, U(85398999999));
    unsmooth(59548, U(85399000000000), LEAP_NOT_KNOWN, 0);
    unsmooth(59548, U(86400000000000), LEAP_NO_INSTANT, 0);
    unsmooth(59549, 0, LEAP_NOT_KNOWN, 0);
    unsmooth(41316, UINT64_MAX, LEAP_BEFORE_1972, 0);
    end();
}

/* The instants of a Z that is known whole: all of its 86,400 s, and nothing after it.
 * `midnight` is the TAI of its start. */
static void whole_day(uint64_t z, int32_t offset, uint64_t midnight)
{
    static const uint64_t TIMES[] = {0, U(85398999999), U(85399000000), U(86398999999),
                                     U(86399000000), U(86399999999)};
    size_t i;
    dtai(z, LEAP_OK, offset);
    for (i = 0; i < sizeof TIMES / sizeof *TIMES; i++) {
        tai(z, TIMES[i], LEAP_OK, midnight + TIMES[i]);
        utc(midnight + TIMES[i], LEAP_OK, z, TIMES[i]);
        uts(z, TIMES[i], LEAP_OK, 1000 * TIMES[i]);
        unsmooth(z, 1000 * TIMES[i], LEAP_OK, TIMES[i]);
        unsmooth(z, 1000 * TIMES[i] + 999, LEAP_OK, TIMES[i]);
    }
    tai(z, U(86400000000), LEAP_NO_INSTANT, 0);
    uts(z, U(86400000000), LEAP_NO_INSTANT, 0);
    tai(z, U(86400999999), LEAP_NO_INSTANT, 0);
    uts(z, U(86400999999), LEAP_NO_INSTANT, 0);
    unsmooth(z, U(86400000000000), LEAP_NO_INSTANT, 0);
    utc(midnight + U(86400000000), LEAP_NOT_KNOWN, 0, 0);
    dtai(z + 1, LEAP_NOT_KNOWN, 0);
    tai(z + 1, 0, LEAP_NOT_KNOWN, 0);
    uts(z + 1, 0, LEAP_NOT_KNOWN, 0);
    unsmooth(z + 1, 0, LEAP_NOT_KNOWN, 0);
    tai(z + 1, U(86401000000), LEAP_NO_INSTANT, 0);
    uts(z + 1, U(86400000000), LEAP_NOT_KNOWN, 0);
}

static void last_days(void)
{
    static const leap_second far[2] = {{999, 0}, {1998, 0}};

    /* 10/14's 41360: Z is day 42, 3,628,800 s from the start of 1972. */
    begin("times: the last day before an expiry within a month");
    asked = schedule(0, NULL, 41360);
    whole_day(41359, 10, U(3628810000000));
    /* 1 January 1972 alone. */
    asked = schedule(0, NULL, 41318);
    whole_day(41317, 10, 10000000);
    /* 28 December 1972: Z is day 361, 31,190,400 s. */
    asked = schedule(1, &PLUS_6, 41679);
    whole_day(41678, 11, U(31190411000000));
    asked = schedule(1, &MINUS_6, 41679);
    whole_day(41678, 9, U(31190409000000));
    /* 31 December 1972: Z is the 30th, day 364, 31,449,600 s. */
    asked = schedule(1, &PLUS_6, MONTH_12 - 1);
    whole_day(41681, 11, U(31449611000000));
    /* 2 December 1972: Z is the first of a month, day 335, 28,944,000 s. */
    asked = schedule(1, &PLUS_6, MONTH_11 + 1);
    whole_day(41652, 11, U(28944011000000));
    end();

    /* The expiry is 1 January 1973: Z is day 365, 31,536,000 s, and is cut off. */
    begin("times: the last day before an expiry on the first of a month");
    asked = schedule(1, &PLUS_6, MONTH_12);
    dtai(41682, LEAP_OK, 11);
    tai(41682, U(86398999999), LEAP_OK, U(31622409999999));
    tai(41682, U(86399000000), LEAP_NOT_KNOWN, 0);
    utc(U(31622409999999), LEAP_OK, 41682, U(86398999999));
    utc(U(31622410000000), LEAP_NOT_KNOWN, 0, 0);
    uts(41682, U(85398999999), LEAP_OK, U(85398999999000));
    uts(41682, U(85399000000), LEAP_NOT_KNOWN, 0);
    unsmooth(41682, U(85398999999999), LEAP_OK, U(85398999999));
    unsmooth(41682, U(85399000000000), LEAP_NOT_KNOWN, 0);
    dtai(41683, LEAP_NOT_KNOWN, 0);
    end();

    /* 2 July 1972: Z is the day after the leap, day 182, 15,724,800 s. */
    begin("times: a leap the day before the last day");
    asked = schedule(1, &PLUS_6, MONTH_6 + 1);
    dtai(41498, LEAP_OK, 10);
    uts(41498, U(86400000000), LEAP_OK, U(86399001000000));
    tai(41498, U(86400999999), LEAP_OK, U(15724810999999));
    utc(U(15724810999999), LEAP_OK, 41498, U(86400999999));
    whole_day(41499, 11, U(15724811000000));
    asked = schedule(1, &MINUS_6, MONTH_6 + 1);
    uts(41498, U(86399000000), LEAP_NO_INSTANT, 0);
    whole_day(41499, 9, U(15724809000000));
    end();

    /* MJD 114364 is day 73,047, 6,311,260,800 s; DTAI is 12. 114366 is the first of a
     * month, so that no list knows MJD 114365 whole. */
    begin("times: the last days that a list can know");
    asked = schedule(2, far, 114365);
    whole_day(114364, 12, U(6311260812000000));
    asked = schedule(2, far, 114366);
    uts(114364, U(86399999999), LEAP_OK, U(86399999999000));
    uts(114365, U(85398999999), LEAP_OK, U(85398999999000));
    uts(114365, U(85399000000), LEAP_NOT_KNOWN, 0);
    tai(114365, U(86398999999), LEAP_OK, U(6311433610999999));
    tai(114365, U(86399000000), LEAP_NOT_KNOWN, 0);
    utc(U(6311433611000000), LEAP_NOT_KNOWN, 0, 0);
    dtai(114366, LEAP_NOT_KNOWN, 0);
    end();
}

int main(void)
{
    new_areas();
    dates();
    tai_and_utc();
    smoothed();
    last_days();
    return 0;
}
