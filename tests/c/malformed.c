/* Every call of leap.h that takes a schedule, on schedules that break one clause
 * of 01 or of request 10/14 each: all refuse with 11, before any other refusal, and
 * set their outputs to 0; a writer leaves its room as it was. Under many questions
 * every number is 11, and a replay prints "!11" and keeps the words. */
#include "lent.h"

enum { MANY = 3 };

static const leap_schedule *given;

/* The call's number and the output at the end of `one_area`. */
static void refused(const char *call, uint8_t number, size_t size)
{
    static const uint8_t zeros[8 * MANY];
    same(call, "number", number, LEAP_NOT_WELL_FORMED);
    same(call, "an output byte", memcmp(one_area + AREA - size, zeros, size) != 0, 0);
    untouched(call, one_area, size);
}

typedef uint8_t writer(const leap_schedule *, uint8_t *, size_t, uint64_t *);

static void writes(const char *call, writer *write, size_t room)
{
    uint64_t *written = last(one_area, sizeof *written);
    refused(call, write(given, last(out_area, room), room, written), sizeof *written);
    untouched(call, out_area, 0);
}

typedef uint8_t of_a_day(const leap_schedule *, uint64_t, uint64_t, uint64_t *);

static void asks(const char *call, of_a_day *ask, uint64_t mjd, uint64_t time)
{
    uint64_t *answer = last(one_area, sizeof *answer);
    refused(call, ask(given, mjd, time, answer), sizeof *answer);
}

static void dtai(uint64_t mjd)
{
    int32_t *answer = last(one_area, sizeof *answer);
    refused("dtai", leap_dtai(given, mjd, answer), sizeof *answer);
}

static void utc(uint64_t tai)
{
    uint64_t *mjd = last(one_area, sizeof *mjd), *micros = last(two_area, sizeof *micros);
    refused("tai_to_utc", leap_tai_to_utc(given, tai, mjd, micros), sizeof *mjd);
    same("tai_to_utc", "microseconds", *micros, 0);
}

/* Extension of a good list by the given one, of the given one by a good list, and
 * of the given one by itself. */
static void extends(void)
{
    leap_schedule good = list_plus(), *other = last_copy(two_area, &good, sizeof good);
    uint8_t *yes = last(one_area, 1);
    refused("extends", leap_extends(given, other, yes), 1);
    yes = last(one_area, 1);
    refused("extends", leap_extends(other, given, yes), 1);
    yes = last(one_area, 1);
    refused("extends", leap_extends(given, given, yes), 1);
    same("extends", "a word of the other", memcmp(other, &good, sizeof good) != 0, 0);
}

/* The numbers, at the end of `two_area`, and the answers, at the end of `one_area`, of
 * many questions. */
static void all_refused(const char *call, uint64_t count, const uint8_t *numbers, size_t size)
{
    size_t i;
    same(call, "count", count, MANY);
    for (i = 0; i < MANY; i++)
        refused(call, numbers[i], MANY * size);
    untouched(call, two_area, MANY);
}

typedef uint64_t of_days(const leap_schedule *, const uint64_t *, size_t, const uint64_t *, size_t,
                         uint8_t *, size_t, uint64_t *, size_t);

static const uint64_t DAYS[MANY] = {41317, 0, 41498}, TIMES[MANY] = {0, UINT64_MAX, 1000};

static void asks_many(const char *call, of_days *ask)
{
    uint8_t *numbers = last(two_area, MANY);
    uint64_t *answers = last(one_area, MANY * sizeof *answers);
    uint64_t count = ask(given, DAYS, MANY, TIMES, MANY, numbers, MANY, answers, MANY);
    all_refused(call, count, numbers, sizeof *answers);
}

static void dtai_many(void)
{
    uint8_t *numbers = last(two_area, MANY);
    int32_t *answers = last(one_area, MANY * sizeof *answers);
    uint64_t count = leap_dtai_many(given, DAYS, MANY, numbers, MANY, answers, MANY);
    all_refused("dtai_many", count, numbers, sizeof *answers);
}

static void utc_many(void)
{
    static const uint64_t TAI[MANY] = {10000000, 0, UINT64_MAX};
    uint8_t *numbers = last(two_area, MANY);
    uint64_t *days = last(one_area, MANY * sizeof *days), times[MANY] = {7, 7, 7}, count;
    size_t i;
    count = leap_tai_to_utc_many(given, TAI, MANY, numbers, MANY, days, MANY, times, MANY);
    all_refused("tai_to_utc_many", count, numbers, sizeof *days);
    for (i = 0; i < MANY; i++)
        same("tai_to_utc_many", "microseconds", times[i], 0);
}

static void replays(void)
{
    static const uint8_t trace[] = "Q 41317 0\nS\nQ 0 999999999999999999\nZ\n";
    leap_schedule current = *given, stored = list_plus();
    uint8_t out[100];
    uint64_t used, written;
    same("replay", "number",
         leap_replay(&current, &stored, trace, sizeof trace - 1, out, sizeof out, &used, &written),
         LEAP_OK);
    same("replay", "used", used, sizeof trace - 1);
    same("replay", "written", written, 8);
    same("replay", "a printed byte", memcmp(out, "!11\n!11\n", 8) != 0, 0);
    same("replay", "a word of the current list", memcmp(&current, given, sizeof current) != 0, 0);
    same("replay", "a word of the stored list", memcmp(&stored, given, sizeof stored) != 0, 0);
}

/* Each call with values that a good list would answer, and with others. */
static void malformed(leap_schedule s)
{
    given = last_copy(in_area, &s, sizeof s);
    writes("write_text", leap_write_text, LEAP_TEXT_ROOM);
    writes("write_text", leap_write_text, 0);
    writes("write_nybbles", leap_write_nybbles, LEAP_NYBBLES_ROOM);
    writes("write_nybbles", leap_write_nybbles, 0);
    dtai(41317), dtai(0);
    utc(10000000), utc(0);
    asks("utc_to_tai", leap_utc_to_tai, 41317, 0);
    asks("utc_to_tai", leap_utc_to_tai, 0, UINT64_MAX);
    asks("utc_to_uts", leap_utc_to_uts, 41317, 0);
    asks("utc_to_uts", leap_utc_to_uts, 0, UINT64_MAX);
    asks("uts_to_utc", leap_uts_to_utc, 41317, 0);
    asks("uts_to_utc", leap_uts_to_utc, 0, UINT64_MAX);
    extends();
    dtai_many();
    utc_many();
    asks_many("utc_to_tai_many", leap_utc_to_tai_many);
    asks_many("utc_to_uts_many", leap_utc_to_uts_many);
    asks_many("uts_to_utc_many", leap_uts_to_utc_many);
    replays();
    same("all", "an input word", memcmp(given, &s, sizeof s) != 0, 0);
}

/* 6+5? with one word changed: words 0 and 1 are the first place, 2k and 2k + 1
 * the unused ones, 512 the count and 513 the expiry MJD. */
static void changed(uint32_t word, uint32_t value)
{
    leap_schedule s = list_plus();
    uint32_t words[514];
    memcpy(words, &s, sizeof s);
    words[word] = value;
    memcpy(&s, words, sizeof s);
    malformed(s);
}

static void not_well_formed(void)
{
    static const leap_second equal[2] = {{6, 0}, {6, 0}}, falling[2] = {{6, 0}, {5, 0}};
    static const leap_second far[1] = {{1000, 0}}, near[3] = {{999, 0}, {1500, 0}, {2399, 0}};
    static const leap_second at_2400[3] = {{999, 0}, {1500, 0}, {2400, 0}};
    leap_schedule many = list_of_gaps(0, 1);

    begin("malformed: schedules with a wrong count");
    malformed(schedule(0, NULL, 0));   /* the blank one */
    changed(512, 0), changed(512, 2), changed(512, 257), changed(512, UINT32_MAX);
    changed(512, 65536 + 1), changed(512, 256 + 1);
    many.count = 257, many.expiry_mjd = first_day(258);
    malformed(many);
    end();

    begin("malformed: schedules with a wrong sign word");
    changed(1, 2), changed(1, 256), changed(1, 65536), changed(1, UINT32_MAX);
    changed(3, 1), changed(3, 2), changed(511, 1), changed(511, UINT32_MAX);
    end();

    begin("malformed: schedules with a wrong month word");
    changed(0, 0), changed(0, 11), changed(0, 65536), changed(0, 65536 + 6);
    changed(0, UINT32_MAX);
    changed(2, 7), changed(2, 65536), changed(510, 1), changed(510, UINT32_MAX);
    end();

    begin("malformed: schedules with a wrong gap");
    malformed(schedule(2, equal, MONTH_11));
    malformed(schedule(2, falling, MONTH_11));
    malformed(schedule(1, far, first_day(1001)));
    end();

    /* Month 6 starts on MONTH_6. The month 999 after it, 1005, is October 2055: 183 days
     * after month 999, and 31 days long; so 71937 is the first day too late. */
    begin("malformed: schedules that expire too early or too late");
    malformed(schedule(0, NULL, 41317)), malformed(schedule(0, NULL, 41316));
    malformed(schedule(0, NULL, 71753)), malformed(schedule(0, NULL, MONTH_2400));
    changed(513, 0), changed(513, MONTH_6), changed(513, MONTH_6 - 1), changed(513, 41317);
    changed(513, MONTH_999 + 183 + 31), changed(513, MONTH_2400);
    changed(513, 65536 + MONTH_11), changed(513, UINT32_C(0x80000000) + MONTH_11);
    changed(513, UINT32_MAX);
    malformed(schedule(3, near, MONTH_2399)), malformed(schedule(3, near, 114367));
    malformed(schedule(3, at_2400, MONTH_2400)), malformed(schedule(3, at_2400, 114367));
    end();
}

/* Words of version 1 of the interface: the last one is the expiry's month. */
static void version_1(void)
{
    static const leap_second far[2] = {{999, 0}, {1998, 0}};
    leap_schedule b = list_b(), full = list_of_gaps(0, 1);
    uint32_t month;
    begin("malformed: schedules of version 1, with an expiry month");
    changed(513, 11);
    b.expiry_mjd = 599;
    malformed(b);
    malformed(schedule(2, far, 2400));
    full.expiry_mjd = 257;
    malformed(full);
    for (month = 1; month <= 999; month++)
        malformed(schedule(0, NULL, month));
    end();
}

/* The words one step inside the limits are a list. */
static void well_formed(void)
{
    static const leap_second near[3] = {{999, 0}, {1500, 0}, {2399, 0}};
    static const struct {
        uint32_t count, expiry_mjd;
        const leap_second *leaps;
    } LISTS[] = {
        {0, 41318, NULL}, {0, 41347, NULL}, {0, 41348, NULL}, {0, 71752, NULL},
        {1, MONTH_6 + 1, &PLUS_6}, {1, MONTH_999 + 183 + 30, &PLUS_6},
        {3, MONTH_2399 + 1, near}, {3, MONTH_2400, near},
    };
    size_t i;
    begin("malformed: none of these, one step inside the limits");
    for (i = 0; i < sizeof LISTS / sizeof *LISTS; i++) {
        leap_schedule s = schedule(LISTS[i].count, LISTS[i].leaps, LISTS[i].expiry_mjd);
        int32_t answer;
        same("dtai", "number", leap_dtai(&s, 41317, &answer), LEAP_OK);
        same("dtai", "DTAI", (uint64_t)answer, 10);
        same("dtai", "number", leap_dtai(&s, s.expiry_mjd - 1, &answer), LEAP_OK);
        same("dtai", "number", leap_dtai(&s, s.expiry_mjd, &answer), LEAP_NOT_KNOWN);
    }
    end();
}

int main(void)
{
    new_areas();
    not_well_formed();
    version_1();
    well_formed();
    return 0;
}
