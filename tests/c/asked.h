/* Lists, well formed and not, and the days and times at which something changes
 * under each, or that are random. */
#ifndef ASKED_H
#define ASKED_H

#include "lent.h"

/* ---- lists ---- */

typedef struct {
    const char *name;
    leap_schedule list;
    int good; /* whether it is well formed */
} named_list;

static named_list lists[64];
static size_t list_count;

static inline void add(const char *name, leap_schedule s, int good)
{
    lists[list_count].name = name;
    lists[list_count].list = s;
    lists[list_count++].good = good;
}

/* 256 leaps that many months apart, with the signs of `signs` over and over. */
static inline leap_schedule full(uint32_t apart, const char *signs, uint32_t expiry_mjd)
{
    leap_schedule s = list_of_gaps(256, apart);
    uint32_t i;
    for (i = 0; i < 256; i++)
        s.leap[i].negative = signs[i % strlen(signs)] == '-';
    s.expiry_mjd = expiry_mjd;
    return s;
}

static const leap_second FAR_LEAPS[2] = {{999, 0}, {1998, 1}};

/* Lists that expire on the first of a month, and then some that don't. */
static inline void add_good(void)
{
    static const leap_second one[1] = {{1, 1}};
    static const leap_second mixed[6] = {{1, 0}, {2, 1}, {3, 1}, {4, 0}, {5, 0}, {7, 1}};
    leap_schedule b = list_b();
    b.expiry_mjd += 27;
    add("6+5?", list_plus(), 1);
    add("6-5?", list_n(), 1);
    add("B", list_b(), 1);
    add("1?, no leaps", schedule(0, NULL, MONTH_1), 1);
    add("999?, no leaps", schedule(0, NULL, MONTH_999), 1);
    add("1-1?", schedule(1, one, MONTH_2), 1);
    add("leaps in consecutive months", schedule(6, mixed, first_day(8)), 1);
    add("999+999-402?", schedule(2, FAR_LEAPS, MONTH_2400), 1);
    add("256 leaps, a month apart", full(1, "+", first_day(257)), 1);
    add("256 negative leaps", full(1, "-", first_day(1255)), 1);
    add("256 leaps of both signs", full(9, "+--+-", MONTH_2400), 1);

    add("no leaps, to 2 January 1972", schedule(0, NULL, 41318), 1);
    add("no leaps, to 13 February 1972", schedule(0, NULL, 41360), 1);
    add("no leaps, to the last day of month 999", schedule(0, NULL, 71752), 1);
    add("6+, to the day after its month's first", schedule(1, &PLUS_6, MONTH_6 + 1), 1);
    add("6-, to the last day of its month", schedule(1, &MINUS_6, MONTH_7 - 1), 1);
    add("6+, to 28 December 1972", schedule(1, &PLUS_6, 41679), 1);
    add("B, to 28 December 2021", b, 1);
    add("999+999-, to the last day of month 2399", schedule(2, FAR_LEAPS, 114365), 1);
    add("256 leaps, in the last one's month", full(1, "+-", first_day(256) + 1), 1);
    add("256 negative leaps, to a 15th", full(1, "-", first_day(1000) + 14), 1);
}

/* 6+5? with one word changed: words 0 and 1 are the first place, 2k and 2k + 1
 * the unused ones, 512 the count and 513 the expiry MJD. */
static inline void add_changed(const char *name, uint32_t word, uint32_t value)
{
    leap_schedule s = list_plus();
    uint32_t words[514];
    memcpy(words, &s, sizeof s);
    words[word] = value;
    memcpy(&s, words, sizeof s);
    add(name, s, 0);
}

static inline void add_malformed(void)
{
    static const leap_second falling[2] = {{6, 0}, {5, 0}};
    static const leap_second near[3] = {{900, 0}, {1401, 1}, {2000, 0}};
    leap_schedule over = full(1, "+", first_day(258)), sign = full(1, "+", first_day(257));
    leap_schedule month_599 = list_b();
    over.count = 257;
    month_599.expiry_mjd = 599;
    sign.leap[255].negative = 2;
    add("the blank list", schedule(0, NULL, 0), 0);
    add_changed("a sign word of 2", 1, 2);
    add_changed("a sign word of 65,536", 1, 65536);
    add("a last sign word of 2", sign, 0);
    add_changed("a month of 65,536 + 6", 0, 65536 + 6);
    add_changed("a month of 2^31 + 6", 0, UINT32_C(0x80000006));
    add("a count of 257", over, 0);
    add_changed("a count of 256 + 1", 512, 256 + 1);
    add_changed("a count of 65,536 + 1", 512, 65536 + 1);
    add("an expiry of 114367", schedule(3, near, 114367), 0);
    add_changed("an expiry of 65,536 + 41652", 513, 65536 + MONTH_11);
    add_changed("an expiry of 2^31 + 41652", 513, UINT32_C(0x80000000) + MONTH_11);
    add_changed("an expiry at the leap", 513, MONTH_6);
    add_changed("an expiry before the leap", 513, MONTH_6 - 1);
    add_changed("an expiry month, 11", 513, 11);
    add("an expiry month, 599", month_599, 0);
    add("an expiry month, 2400", schedule(2, FAR_LEAPS, 2400), 0);
    add_changed("a month left over", 2, 7);
    add_changed("a sign left over", 3, 1);
    add_changed("a month left over in the last place", 510, 12);
    add_changed("a sign left over in the last place", 511, 1);
    add("months that fall", schedule(2, falling, MONTH_11), 0);
    add("an expiry at the start, no leaps", schedule(0, NULL, 41317), 0);
    /* Month 1000 starts on 71753, and month 1006, 1000 after the leap, on 71937: 30
     * and 183 + 31 days after month 999. */
    add("an expiry 1000 months on", schedule(0, NULL, 71753), 0);
    add_changed("an expiry 1000 months after the leap", 513, 71937);
}

static inline uint64_t start_of(uint32_t month) { return first_day(month < 2400 ? month : 2400); }

/* ---- the list that is asked, and the days at which something changes ---- */

static const uint64_t FAR[] = {0, 65536, UINT32_MAX, U(1) << 32, (U(1) << 32) + 41498,
                               U(1) << 63, UINT64_MAX};
enum { FARS = sizeof FAR / sizeof *FAR };

static named_list asked;
static uint64_t days[4 * 259 + FARS];
static size_t day_count;

static inline void add_days(uint64_t start)
{
    uint64_t mjd;
    for (mjd = start - 2; mjd != start + 2; mjd++)
        days[day_count++] = mjd;
}

static inline void choose(size_t which)
{
    uint32_t i;
    asked = lists[which];
    day_count = 0;
    add_days(41317);
    for (i = 0; i < 256 && i < asked.list.count; i++)
        add_days(start_of(asked.list.leap[i].month));
    add_days(asked.list.expiry_mjd); /* Z is the second of these */
    add_days(114366);
    for (i = 0; i < FARS; i++)
        days[day_count++] = FAR[i];
}

/* The second of a day at which something changes. */
static const uint64_t SECONDS[] = {0, 85399, 85400, 85401, 86398, 86399, 86400, 86401};
enum { SECONDS_COUNT = sizeof SECONDS / sizeof *SECONDS };

/* TAI at a time of a day with that DTAI. */
static inline uint64_t tai_of(uint64_t mjd, int64_t dtai, uint64_t micros)
{
    return U(86400000000) * (mjd - 41317) + (uint64_t)(1000000 * dtai) + micros;
}

/* ---- random days and times ---- */

static inline uint64_t bits(void) /* splitmix64 */
{
    static uint64_t state = 1972;
    uint64_t z = state += U(0x9e3779b97f4a7c15);
    z = (z ^ (z >> 30)) * U(0xbf58476d1ce4e5b9);
    z = (z ^ (z >> 27)) * U(0x94d049bb133111eb);
    return z ^ (z >> 31);
}

static inline uint64_t below(uint64_t limit) { return bits() % limit; }

static inline uint64_t random_day(void)
{
    uint64_t expiry = asked.list.expiry_mjd;
    switch (below(8)) {
    case 0: return bits() >> below(64);
    case 1: return 41300 + below(73100);
    case 2:
    case 3: return 41317 + below(expiry > 41317 ? expiry - 41317 + 1 : 1);
    default: return days[below(day_count)] + below(3) - 1;
    }
}

/* A time of day, in that many parts of a second. */
static inline uint64_t random_time(uint64_t parts)
{
    switch (below(8)) {
    case 0: return bits() >> below(64);
    case 1:
    case 2: return below(86402 * parts);
    case 3:
    case 4: return 85398 * parts + below(1005 * parts);
    default: return SECONDS[below(SECONDS_COUNT)] * parts + below(3) - 1;
    }
}

static inline uint64_t random_tai(void)
{
    uint64_t mjd = random_day();
    int32_t dtai;
    if (below(8) == 0)
        return bits() >> below(64);
    leap_dtai(&asked.list, mjd, &dtai);
    return tai_of(mjd, dtai, random_time(1000000));
}

#endif
