/* The calls of leap.h about two lists. The expected values stand here as requests
 * 7/14 and 10/14 give them, or are worked out beside them from their rules. */
#include "asked.h"

/* Two lists, lent, and the check that they stay. */
static const uint8_t *first, *second;
static const char *first_list, *second_list;
static char name[64];

static void lend(const char *one, const char *other)
{
    first = last_copy(in_area, first_list = one, strlen(one));
    second = last_copy(two_area, second_list = other, strlen(other));
    snprintf(name, sizeof name, "%.24s and %.24s", one, other);
}

static void stay(void)
{
    same(name, "a byte of the first", memcmp(first, first_list, strlen(first_list)) != 0, 0);
    same(name, "a byte of the second", memcmp(second, second_list, strlen(second_list)) != 0, 0);
    untouched(name, in_area, strlen(first_list));
    untouched(name, two_area, strlen(second_list));
}

/* ---- comparing ---- */

/* Compares into that room; the lines are expected at its start. */
static void compares_into(size_t room, uint8_t number, const char *lines)
{
    uint8_t *out = last(out_area, room);
    uint64_t *written = last(one_area, sizeof *written);
    size_t length = strlen(lines), i;
    same(name, "number",
         leap_compare_text(first, strlen(first_list), second, strlen(second_list), out, room,
                           written),
         number);
    same(name, "count", *written, length);
    same(name, "a written byte", length > 0 && memcmp(out, lines, length) != 0, 0);
    for (i = length; i < room; i++)
        same(name, "a byte beyond the lines", out[i], FILL);
    untouched(name, out_area, room);
    untouched(name, one_area, sizeof *written);
    stay();
}

/* Compares into rooms just right, larger, and each one that is too small. */
static void compares(const char *one, const char *other, const char *lines)
{
    size_t length = strlen(lines), room;
    lend(one, other);
    compares_into(length, LEAP_OK, lines);
    compares_into(length + 1, LEAP_OK, lines);
    compares_into(LEAP_COMPARISON_ROOM, LEAP_OK, lines);
    for (room = 0; room < length; room++)
        compares_into(room, LEAP_OUTPUT_SHORT, "");
}

/* ---- handing back ---- */

enum { NONE, FIRST, SECOND };

/* The part handed back is the first list, the second, or the empty start of the
 * first, whatever valid part there was before. */
static void hands_back_after(leap_part before, int which, uint8_t number)
{
    const uint8_t *start = which == SECOND ? second : first;
    size_t length = which == FIRST    ? strlen(first_list)
                    : which == SECOND ? strlen(second_list)
                                      : 0;
    leap_part *part = last_copy(one_area, &before, sizeof before);
    same(name, "number",
         leap_longer_text(first, strlen(first_list), second, strlen(second_list), part), number);
    same(name, "the part's start", (uint64_t)(uintptr_t)part->start, (uint64_t)(uintptr_t)start);
    same(name, "the part's length", part->length, length);
    untouched(name, one_area, sizeof *part);
    stay();
}

static void hands_back(int which, uint8_t number)
{
    leap_part before;
    before.start = first, before.length = 0; /* as the header asks */
    hands_back_after(before, which, number);
    before.start = second, before.length = strlen(second_list);
    hands_back_after(before, which, number);
}

static void longer(const char *one, const char *other, int which)
{
    lend(one, other);
    hands_back(which, which == NONE ? LEAP_CONTRADICTION : LEAP_OK);
}

/* ---- the tests ---- */

static void lines(void)
{
    /* Months 17 and 23 are June and December 1973: 366 + 151 and 366 + 334 days from
     * MJD 41317 on. */
    begin("compare: the example of 7/14, with the expiries of 10/14");
    compares("6+6+5?", "6+12+5?", "12 + 0\n18 ? +\n= 41834 42017\ncontradict\n");
    compares("6+12+5?", "6+6+5?", "12 0 +\n18 + ?\n= 42017 41834\ncontradict\n");
    end();

    /* The expiries are MONTH_5 and others of lent.h; month 8 is September 1972, 244 days
     * on. */
    begin("compare: the same list, a longer one, and one that contradicts");
    compares("6+5?", "6+5?", "same\n");
    compares("999+999-402?", "999+999-402?", "same\n");
    compares("6?", "6+5?", "6 ? +\n= 41499 41652\nextends 2\n");
    compares("6+5?", "6?", "6 + ?\n= 41652 41499\nextends 1\n");
    compares("5?", "6?", "= 41469 41499\nextends 2\n");
    compares("6+5-1?", "6+5?", "11 - ?\n= 41683 41652\nextends 1\n");
    compares("11?", "6+5?", "6 0 +\ncontradict\n"); /* both expire at 11 */
    compares("6+5?", "6-5?", "6 + -\ncontradict\n");
    compares("7+1?", "6+5?", "6 0 +\n7 + 0\n= 41561 41652\ncontradict\n");
    /* 999 + 999 + 401 is 2399, the last month that may have a leap. */
    compares("999+999+401?", "999+999+401-1?", "2399 ? -\n= 114335 114366\nextends 2\n");
    end();
}

/* A list of that many leaps: the first gap, gaps of `step`, and the last. */
static const char *of_gaps(char *list, int first_gap, int leaps, int step, int last_gap)
{
    char *at = list + sprintf(list, "%d+", first_gap);
    while (--leaps > 0)
        at += sprintf(at, "%d+", step);
    sprintf(at, "%d?", last_gap);
    return list;
}

/* 256 leaps each: at 999 and 1001, 1003, .., 1509, and at 998 and 1000, 1002, ..,
 * 1508. No month is shared and none is unknown to either, so there are 512 lines:
 * 510 of 9 bytes, and those of 998 and 999 with 8. The line of the expiries, months
 * 2399 and 2400, has 16 bytes and the last one 11, which makes 4590 + 16 + 16 + 11 =
 * 4633. */
static void longest(void)
{
    static char one[1024], other[1024], lines[8192];
    char *at = lines;
    int month;
    for (month = 998; month <= 1509; month++)
        at += sprintf(at, "%d %s\n", month, month % 2 == 1 ? "+ 0" : "0 +");
    strcpy(at, "= 114335 114366\ncontradict\n");

    begin("compare: the room that holds any comparison");
    same("the longest", "length", strlen(lines), 4633);
    same("the longest", "LEAP_COMPARISON_ROOM", LEAP_COMPARISON_ROOM, 4633);
    lend(of_gaps(one, 999, 256, 2, 890), of_gaps(other, 998, 256, 2, 892));
    compares_into(4633, LEAP_OK, lines);
    compares_into(4632, LEAP_OUTPUT_SHORT, "");
    compares_into(8000, LEAP_OK, lines);
    hands_back(NONE, LEAP_CONTRADICTION);
    end();
}

/* A list that does not read, and any other: refused before room and contradiction
 * are looked at. */
static void refuses(const char *one, const char *other, uint8_t number)
{
    lend(one, other);
    compares_into(0, number, "");
    compares_into(LEAP_COMPARISON_ROOM, number, "");
    hands_back(NONE, number);
}

static void refused(void)
{
    static char many[1024];
    const char *bad[6];
    int i, j;
    bad[0] = "6+", bad[1] = "current", bad[2] = "06+5?", bad[3] = "999+999+403?";
    bad[4] = of_gaps(many, 1, 257, 1, 1), bad[5] = "5?\n";

    begin("compare: lists that do not read, the first before the second");
    for (i = 0; i < 6; i++) {
        refuses(bad[i], "5?", (uint8_t)(i + 1));
        refuses("5?", bad[i], (uint8_t)(i + 1));
        for (j = 0; j < 6; j++)
            refuses(bad[i], bad[j], (uint8_t)(i + 1));
    }
    refuses("", "", LEAP_ENDS_EARLY);
    refuses("", "5?", LEAP_ENDS_EARLY);
    refuses("5?", "", LEAP_ENDS_EARLY);
    end();
}

static void handed_back(void)
{
    begin("compare: the caller's own bytes of the longer list");
    longer("6+5?", "6?", FIRST);
    longer("6?", "6+5?", SECOND);
    longer("6+5?", "6+6?", SECOND);
    longer("6+5-1?", "6+5?", FIRST);
    longer("6+5?", "6+5?", FIRST); /* the same in two places */
    longer("6+6+5?", "6+12+5?", NONE);
    longer("11?", "6+5?", NONE);
    longer("6+5?", "6-5?", NONE);
    lend("6+5?", "6+5?");
    second = first; /* in one place */
    hands_back(FIRST, LEAP_OK);
    end();
}

/* ---- extension ---- */

/* Whether one list extends the other, in the words of 01 and 10/14: its leaps in
 * months that start before the other's expiry day are all of the other's, and its own
 * expiry is no earlier. */
static int in_words(const leap_schedule *l, const leap_schedule *s)
{
    uint32_t known = 0;
    while (known < l->count && first_day(l->leap[known].month) < s->expiry_mjd)
        known++;
    return known == s->count && memcmp(l->leap, s->leap, known * sizeof *l->leap) == 0
           && l->expiry_mjd >= s->expiry_mjd;
}

static void extends(const char *call, leap_schedule longer, leap_schedule shorter,
                    uint8_t number, uint8_t want)
{
    leap_schedule *l = last_copy(in_area, &longer, sizeof longer);
    leap_schedule *s = last_copy(two_area, &shorter, sizeof shorter);
    uint8_t *yes = last(one_area, 1);
    same(call, "number", leap_extends(l, s, yes), number);
    same(call, "yes", *yes, want);
    same(call, "a word of the longer", memcmp(l, &longer, sizeof longer) != 0, 0);
    same(call, "a word of the shorter", memcmp(s, &shorter, sizeof shorter) != 0, 0);
    untouched(call, one_area, 1);
}

/* Of lists that expire on the first of a month. */
static void extension_to_the_month(void)
{
    static const leap_second at_expiry[2] = {{6, 0}, {11, 1}}, before_it[2] = {{6, 0}, {10, 1}};
    leap_schedule six = schedule(1, &PLUS_6, MONTH_12);
    add("12?, no leaps", schedule(0, NULL, MONTH_12), 1);
    add("6+6?", six, 1);
    add("6+5-1?", schedule(2, at_expiry, MONTH_12), 1);
    add("6+4-2?", schedule(2, before_it, MONTH_12), 1);

    begin("compare: extension by hand");
    extends("6+5? of itself", list_plus(), list_plus(), LEAP_OK, 1);
    extends("6+6? of 6+5?", six, list_plus(), LEAP_OK, 1);
    extends("6+5? of 6+6?", list_plus(), six, LEAP_OK, 0);
    extends("6+5-1? of 6+5?", schedule(2, at_expiry, MONTH_12), list_plus(), LEAP_OK, 1);
    extends("6+4-2? of 6+5?", schedule(2, before_it, MONTH_12), list_plus(), LEAP_OK, 0);
    extends("6-5? of 6+5?", list_n(), list_plus(), LEAP_OK, 0);
    extends("12? of 6+5?", schedule(0, NULL, MONTH_12), list_plus(), LEAP_OK, 0);
    extends("6+5? of 6?", list_plus(), schedule(0, NULL, MONTH_6), LEAP_OK, 1);
    extends("6+5? of 7?", list_plus(), schedule(0, NULL, MONTH_7), LEAP_OK, 0);
    end();
}

/* Of lists that expire within a month. The one to 28 December 1972 knows that month 11
 * has no leap, and nothing of month 12; and a list knows what happens at month 6 if it
 * expires after MONTH_6, that is from 2 July 1972 on. */
static void extension_to_the_day(void)
{
    static const leap_second in_11[2] = {{6, 0}, {11, 0}}, in_12[2] = {{6, 0}, {12, 0}};
    leap_schedule to_28 = schedule(1, &PLUS_6, 41679), to_29 = schedule(1, &PLUS_6, 41680);
    leap_schedule soon = schedule(1, &PLUS_6, MONTH_6 + 1);
    leap_schedule none = schedule(0, NULL, MONTH_6 + 1);

    begin("compare: extension of lists that expire within a month");
    extends("to the 29th of to the 28th", to_29, to_28, LEAP_OK, 1);
    extends("to the 28th of to the 29th", to_28, to_29, LEAP_OK, 0);
    extends("to the 28th of 6+5?", to_28, list_plus(), LEAP_OK, 1);
    extends("6+5? of to the 28th", list_plus(), to_28, LEAP_OK, 0);
    extends("6+6? of to the 28th", schedule(1, &PLUS_6, MONTH_12), to_28, LEAP_OK, 1);
    extends("a leap at 11", schedule(2, in_11, 41700), to_28, LEAP_OK, 0);
    extends("a leap at 11, of 6+5?", schedule(2, in_11, 41700), list_plus(), LEAP_OK, 1);
    extends("a leap at 12", schedule(2, in_12, 41700), to_28, LEAP_OK, 1);
    extends("of none to the month's first", soon, schedule(0, NULL, MONTH_6), LEAP_OK, 1);
    extends("of none to the day after", soon, none, LEAP_OK, 0);
    extends("by none to the day after", none, soon, LEAP_OK, 0);
    extends("by the other sign", schedule(1, &MINUS_6, MONTH_6 + 1), soon, LEAP_OK, 0);
    end();
}

static void extension(void)
{
    size_t i, j, yes = 0;
    add_good();
    extension_to_the_month();
    extension_to_the_day();

    begin("compare: extension of each good list by each, in the papers' words");
    for (i = 0; i < list_count; i++)
        for (j = 0; j < list_count; j++) {
            int want = in_words(&lists[i].list, &lists[j].list);
            extends(lists[i].name, lists[i].list, lists[j].list, LEAP_OK, (uint8_t)want);
            yes += want && i != j;
        }
    same("extension", "too few that extend another", yes < 20, 0);
    end();

    begin("compare: extension with a schedule that is not well formed");
    add_malformed();
    for (i = 0; i < list_count; i++)
        for (j = 0; j < list_count; j++)
            if (!lists[i].good || !lists[j].good)
                extends(lists[i].name, lists[i].list, lists[j].list, LEAP_NOT_WELL_FORMED, 0);
    end();
}

int main(void)
{
    new_areas();
    lines();
    longest();
    refused();
    handed_back();
    extension();
    return 0;
}
