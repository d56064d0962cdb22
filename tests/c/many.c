/* The calls of leap.h for many questions. Each element is as the call for one
 * question gives it, whose values other tests check; elements beyond the
 * shortest length stay. */
#include "asked.h"

enum kind { DTAI, UTC_TO_TAI, TAI_TO_UTC, UTC_TO_UTS, UTS_TO_UTC, KINDS };

static const char *const NAMES[KINDS] = {"dtai_many", "utc_to_tai_many", "tai_to_utc_many",
                                         "utc_to_uts_many", "uts_to_utc_many"};

/* The arrays of a call, and the elements that fit into each one's area. */
enum { FIRST, SECOND, NUMBERS, ONE, TWO, ARRAYS, MOST = 1000 };

typedef struct {
    size_t of[ARRAYS];
} lengths;

static uint8_t *areas[ARRAYS];
static uint64_t first[MOST], second[MOST]; /* the questions */
static unsigned long met[KINDS][12], compared;

static int has(enum kind kind, int array)
{
    if (array == SECOND)
        return kind != DTAI && kind != TAI_TO_UTC;
    return array != TWO || kind == TAI_TO_UTC;
}

/* The bytes of an array's element. */
static size_t width(enum kind kind, int array)
{
    if (array == NUMBERS)
        return 1;
    return kind == DTAI && array == ONE ? 4 : 8;
}

/* ---- the calls ---- */

typedef struct {
    uint8_t number;
    uint64_t one, two;
} answer;

/* The call for one question. */
static answer single(enum kind kind, const leap_schedule *s, uint64_t a, uint64_t b)
{
    answer r = {0, 0, 0};
    int32_t dtai = 0;
    switch (kind) {
    case DTAI:
        r.number = leap_dtai(s, a, &dtai);
        r.one = (uint64_t)dtai;
        break;
    case UTC_TO_TAI: r.number = leap_utc_to_tai(s, a, b, &r.one); break;
    case TAI_TO_UTC: r.number = leap_tai_to_utc(s, a, &r.one, &r.two); break;
    case UTC_TO_UTS: r.number = leap_utc_to_uts(s, a, b, &r.one); break;
    default: r.number = leap_uts_to_utc(s, a, b, &r.one);
    }
    return r;
}

/* The call for many questions, on arrays at these places. */
static uint64_t many(enum kind kind, const leap_schedule *s, void *const at[ARRAYS], lengths n)
{
    size_t firsts = n.of[FIRST], seconds = n.of[SECOND], numbers = n.of[NUMBERS];
    size_t ones = n.of[ONE], twos = n.of[TWO];
    switch (kind) {
    case DTAI:
        return leap_dtai_many(s, at[FIRST], firsts, at[NUMBERS], numbers, at[ONE], ones);
    case UTC_TO_TAI:
        return leap_utc_to_tai_many(s, at[FIRST], firsts, at[SECOND], seconds, at[NUMBERS],
                                    numbers, at[ONE], ones);
    case TAI_TO_UTC:
        return leap_tai_to_utc_many(s, at[FIRST], firsts, at[NUMBERS], numbers, at[ONE], ones,
                                    at[TWO], twos);
    case UTC_TO_UTS:
        return leap_utc_to_uts_many(s, at[FIRST], firsts, at[SECOND], seconds, at[NUMBERS],
                                    numbers, at[ONE], ones);
    default:
        return leap_uts_to_utc_many(s, at[FIRST], firsts, at[SECOND], seconds, at[NUMBERS],
                                    numbers, at[ONE], ones);
    }
}

/* ---- the checks ---- */

static void agrees(enum kind kind, size_t i, const char *what, uint64_t got, uint64_t want)
{
    char where[200];
    if (got == want)
        return;
    snprintf(where, sizeof where, "%s under %s, [%lu] of %llu, %llu", NAMES[kind], asked.name,
             (unsigned long)i, (unsigned long long)first[i], (unsigned long long)second[i]);
    fail(where, what, got, want);
}

/* An element is as the call for one question gives it. */
static void element(enum kind kind, const leap_schedule *s, void *const at[ARRAYS], size_t i)
{
    answer want = single(kind, s, first[i], second[i]);
    uint64_t one = kind == DTAI ? (uint64_t)((int32_t *)at[ONE])[i] : ((uint64_t *)at[ONE])[i];
    agrees(kind, i, "the number", ((uint8_t *)at[NUMBERS])[i], want.number);
    agrees(kind, i, "the answer", one, want.one);
    if (kind == TAI_TO_UTC)
        agrees(kind, i, "the microseconds", ((uint64_t *)at[TWO])[i], want.two);
    agrees(kind, i, "refused with 11", want.number == LEAP_NOT_WELL_FORMED, !asked.good);
    met[kind][want.number]++;
    compared++;
}

/* An array after the call: an input, or an output beyond the count, is as it was. */
static void stays(enum kind kind, int array, const uint8_t *bytes, size_t length, size_t count)
{
    size_t i, size = length * width(kind, array);
    const uint64_t *questions = array == FIRST ? first : second;
    if (array == FIRST || array == SECOND)
        same(NAMES[kind], "a changed question", size > 0 && memcmp(bytes, questions, size) != 0, 0);
    else
        for (i = count * width(kind, array); i < size; i++)
            same(NAMES[kind], "a byte beyond the count", bytes[i], FILL);
    untouched(NAMES[kind], areas[array], size);
}

/* Asks the questions, with arrays of these lengths. */
static void ask(enum kind kind, lengths n)
{
    leap_schedule *s = last_copy(in_area, &asked.list, sizeof asked.list);
    void *at[ARRAYS] = {NULL, NULL, NULL, NULL, NULL};
    size_t i, count = MOST;
    int array;
    for (array = FIRST; array < ARRAYS; array++) {
        size_t size = n.of[array] * width(kind, array);
        if (!has(kind, array))
            continue;
        at[array] = last(areas[array], size);
        if (size > 0 && (array == FIRST || array == SECOND))
            memcpy(at[array], array == FIRST ? first : second, size);
        if (n.of[array] < count)
            count = n.of[array];
    }
    same(NAMES[kind], "the count", many(kind, s, at, n), count);
    for (i = 0; i < count; i++)
        element(kind, s, at, i);
    for (array = FIRST; array < ARRAYS; array++)
        if (has(kind, array))
            stays(kind, array, at[array], n.of[array], count);
    same(NAMES[kind], "a changed list", memcmp(s, &asked.list, sizeof asked.list) != 0, 0);
    if (failed)
        end();
}

/* ---- the questions ---- */

static size_t put_count;

static void flush(enum kind kind)
{
    lengths n = {{put_count, put_count, put_count, put_count, put_count}};
    ask(kind, n);
    put_count = 0;
}

static void put(enum kind kind, uint64_t a, uint64_t b)
{
    first[put_count] = a;
    second[put_count++] = b;
    if (put_count == MOST)
        flush(kind);
}

/* The parts of a second that a kind's times count. */
static uint64_t parts(enum kind kind) { return kind == UTS_TO_UTC ? 1000000000 : 1000000; }

static void put_times(enum kind kind, uint64_t mjd)
{
    size_t i;
    for (i = 0; i < 3 * SECONDS_COUNT; i++)
        put(kind, mjd, SECONDS[i / 3] * parts(kind) + i % 3 - 1);
    for (i = 0; i < FARS; i++)
        put(kind, mjd, FAR[i]);
}

/* The start of a day, up to two seconds and a microsecond off, and its number. */
static void put_tai(uint64_t mjd)
{
    static int32_t dtai = 10; /* that of the last day that had one */
    int32_t known, off, step;
    if (leap_dtai(&asked.list, mjd, &known) == LEAP_OK)
        dtai = known;
    for (off = -2; off <= 2; off++)
        for (step = -1; step <= 1; step++)
            put(TAI_TO_UTC, tai_of(mjd, dtai + off, (uint64_t)step), 0);
    put(TAI_TO_UTC, mjd, 0);
}

static void at_edges(enum kind kind)
{
    size_t i;
    for (i = 0; i < day_count; i++) {
        if (kind == DTAI)
            put(kind, days[i], 0);
        else if (kind == TAI_TO_UTC)
            put_tai(days[i]);
        else
            put_times(kind, days[i]);
    }
    flush(kind);
}

static void at_random(enum kind kind, size_t count)
{
    while (count-- > 0) {
        if (kind == TAI_TO_UTC)
            put(kind, random_tai(), 0);
        else
            put(kind, random_day(), kind == DTAI ? 0 : random_time(parts(kind)));
    }
}

/* Each of the arrays in turn the shortest, down to empty; then all at random. */
static void in_lengths(enum kind kind)
{
    static const size_t SHORT[6] = {0, 1, 2, 7, 64, 257};
    lengths n;
    int array, other, i;
    at_random(kind, MOST - 1);
    put_count = 0; /* they stay, to be asked below */
    for (array = FIRST; array < ARRAYS; array++)
        for (i = 0; i < 6; i++) {
            for (other = FIRST; other < ARRAYS; other++)
                n.of[other] = SHORT[i] + (other == array ? 0 : 1 + below(i < 3 ? 5 : 500));
            if (has(kind, array))
                ask(kind, n);
        }
    for (i = 0; i < 20; i++) {
        for (other = FIRST; other < ARRAYS; other++)
            n.of[other] = below(MOST);
        ask(kind, n);
    }
}

/* ---- the tests ---- */

static void under_all(enum kind kind, const char *how, void (*test)(enum kind), int good)
{
    static char name[100];
    size_t which;
    snprintf(name, sizeof name, "many: %s under %s lists, %s", NAMES[kind],
             good ? "good" : "malformed", how);
    begin(name);
    for (which = 0; which < list_count; which++)
        if (lists[which].good == good) {
            choose(which);
            test(kind);
        }
    end();
}

static void by_chance(enum kind kind)
{
    at_random(kind, asked.good ? 20000 : 2000);
    flush(kind);
}

/* Each number that a question may have was among the answers. */
static void all_met(void)
{
    static const uint8_t NUMBER[5] = {0, 8, 9, 10, 11};
    int kind, i;
    begin("many: every number met, and a million elements");
    for (kind = 0; kind < KINDS; kind++)
        for (i = 0; i < 5; i++) {
            int no_such = NUMBER[i] == 9 && (kind == DTAI || kind == TAI_TO_UTC);
            same(NAMES[kind], "a number met", met[kind][NUMBER[i]] > 0, !no_such);
        }
    same("all", "compared a million", compared >= 1000000, 1);
    end();
}

int main(void)
{
    int kind, good, array;
    new_areas();
    for (array = FIRST; array < ARRAYS; array++)
        areas[array] = new_area();
    begin("many: the calendar of the tests");
    same("the calendar", "January 2172", first_day(2400), MONTH_2400);
    end();
    add_good();
    add_malformed();
    for (kind = 0; kind < KINDS; kind++)
        for (good = 1; good >= 0; good--) {
            under_all(kind, "at the edges", at_edges, good);
            under_all(kind, "at random", by_chance, good);
            under_all(kind, "in arrays of any lengths", in_lengths, good);
        }
    all_met();
    return 0;
}
