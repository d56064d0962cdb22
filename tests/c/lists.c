/* The readers and writers of leap.h on good and bad lists. The expected values
 * stand here as 01 and request 10/14 give them, or are worked out beside them from
 * their rules. */
#include "lent.h"

/* ---- readers ---- */

typedef uint8_t reader(const uint8_t *, size_t, leap_schedule *, uint64_t *);

static leap_schedule result;

static void reads(reader *read, const char *name, const void *list, size_t length,
                  uint8_t number, uint64_t place)
{
    static const leap_schedule blank;
    uint8_t *bytes = last_copy(in_area, list, length);
    leap_schedule *out = last(out_area, sizeof *out);
    uint64_t *at = last(one_area, sizeof *at);
    same(name, "number", read(bytes, length, out, at), number);
    same(name, "place", *at, place);
    same(name, "an input byte", length > 0 && memcmp(bytes, list, length) != 0, 0);
    untouched(name, out_area, sizeof *out);
    untouched(name, one_area, sizeof *at);
    if (number != LEAP_OK)
        same(name, "a word that should be 0", memcmp(out, &blank, sizeof blank) != 0, 0);
    result = *out;
}

static void text(const char *list, uint8_t number, uint64_t place)
{
    reads(leap_read_text, list, list, strlen(list), number, place);
}

static void nybbles(const char *name, const uint8_t *list, size_t length,
                    uint8_t number, uint64_t place)
{
    reads(leap_read_nybbles, name, list, length, number, place);
}

/* The schedule last read is this one, in all 514 words. */
static void gives(const char *name, leap_schedule want)
{
    same(name, "count", result.count, want.count);
    same(name, "expiry", result.expiry_mjd, want.expiry_mjd);
    same(name, "a leap", memcmp(&result, &want, sizeof want) != 0, 0);
}

/* List A: 6+6+12+12+12+12+12+12+12+18+12+12+24+30+24+12+18+12+12+5?
 * List B: hex 00111111 12113431 2112229D 565287FA */
static const char A_TEXT[] = "6+6+12+12+12+12+12+12+12+18+12+12+24+30+24+12+18+12+12+5?";
static const uint8_t A_NYBBLES[] = {
    0x00, 0x11, 0x11, 0x11, 0x12, 0x11, 0x34, 0x31, 0x21, 0x91, 0xF4
};
static const uint8_t B_NYBBLES[] = {
    0x00, 0x11, 0x11, 0x11, 0x12, 0x11, 0x34, 0x31,
    0x21, 0x12, 0x22, 0x9D, 0x56, 0x52, 0x87, 0xFA
};
/* B's nybbles by hand: 9D is 14 sixes, 5652 are 36, 42, 36 and 18 months, 87 is
 * 48 months that go on, FA is 11 months to the expiry. */
static const char B_TEXT[] =
    "6+6+12+12+12+12+12+12+12+18+12+12+24+30+24+12+18+12+12+18+18+18+84+36+42+36+18+59?";

/* ---- writers ---- */

typedef uint8_t writer(const leap_schedule *, uint8_t *, size_t, uint64_t *);

/* Writes into that room; the list is expected at its start, or nothing. */
static void writes(writer *write, const char *name, leap_schedule given, size_t room,
                   uint8_t number, const void *list, size_t length)
{
    leap_schedule *s = last_copy(in_area, &given, sizeof given);
    uint8_t *out = last(out_area, room);
    uint64_t *written = last(one_area, sizeof *written);
    size_t i;
    same(name, "number", write(s, out, room, written), number);
    same(name, "count", *written, length);
    same(name, "an input word", memcmp(s, &given, sizeof given) != 0, 0);
    if (length > 0 && list != NULL)
        same(name, "a written byte", memcmp(out, list, length) != 0, 0);
    for (i = length; i < room; i++)
        same(name, "a byte beyond the list", out[i], FILL);
    untouched(name, out_area, room);
    untouched(name, one_area, sizeof *written);
}

/* Writes a list into rooms just right, larger, too small and empty. */
static void writes_all(writer *write, const char *name, leap_schedule s,
                       const void *list, size_t length)
{
    writes(write, name, s, length, LEAP_OK, list, length);
    writes(write, name, s, length + 1, LEAP_OK, list, length);
    writes(write, name, s, length + 100, LEAP_OK, list, length);
    writes(write, name, s, length - 1, LEAP_OUTPUT_SHORT, NULL, 0);
    writes(write, name, s, 0, LEAP_OUTPUT_SHORT, NULL, 0);
}

/* ---- the tests ---- */

static void numbers(void)
{
    begin("lists: the numbers, and the version");
    same("define", "LEAP_API_VERSION", LEAP_API_VERSION, 2);
    same("enum", "LEAP_OK", LEAP_OK, 0);
    same("enum", "LEAP_ENDS_EARLY", LEAP_ENDS_EARLY, 1);
    same("enum", "LEAP_NOT_ALLOWED", LEAP_NOT_ALLOWED, 2);
    same("enum", "LEAP_BAD_GAP", LEAP_BAD_GAP, 3);
    same("enum", "LEAP_PAST_LAST_MONTH", LEAP_PAST_LAST_MONTH, 4);
    same("enum", "LEAP_TOO_MANY_LEAPS", LEAP_TOO_MANY_LEAPS, 5);
    same("enum", "LEAP_AFTER_END", LEAP_AFTER_END, 6);
    same("enum", "LEAP_OUTPUT_SHORT", LEAP_OUTPUT_SHORT, 7);
    same("enum", "LEAP_BEFORE_1972", LEAP_BEFORE_1972, 8);
    same("enum", "LEAP_NO_INSTANT", LEAP_NO_INSTANT, 9);
    same("enum", "LEAP_NOT_KNOWN", LEAP_NOT_KNOWN, 10);
    same("enum", "LEAP_NOT_WELL_FORMED", LEAP_NOT_WELL_FORMED, 11);
    same("enum", "LEAP_CONTRADICTION", LEAP_CONTRADICTION, 16);
    same("enum", "LEAP_NO_GAP", LEAP_NO_GAP, 17);
    same("enum", "LEAP_NO_LINE", LEAP_NO_LINE, 20);
    end();
}

/* `count` times the unit, then the tail. */
static const char *repeated(const char *unit, int count, const char *tail)
{
    static char list[2048];
    list[0] = 0;
    while (count-- > 0)
        strcat(list, unit);
    return strcat(list, tail);
}

static void reads_text(void)
{
    uint32_t i;
    begin("lists: read_text on P1 to P6 and list N");
    text("5?", LEAP_OK, 0), gives("5?", schedule(0, NULL, MONTH_5));
    text("", LEAP_ENDS_EARLY, 0);
    text("06+5?", LEAP_BAD_GAP, 0);
    text("1000?", LEAP_BAD_GAP, 3);
    text("999?", LEAP_OK, 0), gives("999?", schedule(0, NULL, MONTH_999));
    text("5?\n", LEAP_AFTER_END, 2);
    text("6+5?", LEAP_OK, 0), gives("6+5?", list_plus());
    text("6-5?", LEAP_OK, 0), gives("6-5?", list_n());
    end();

    begin("lists: read_text on list A");
    text(A_TEXT, LEAP_OK, 0);
    same("A", "count", result.count, 19);
    same("A", "last leap", result.leap[18].month, 270);
    /* Month 275 is December 1994: 23 years with 6 leap days, less 31 days. */
    same("A", "expiry", result.expiry_mjd, 49687);
    for (i = 0; i < 256; i++)
        same("A", "a sign", result.leap[i].negative, 0);
    for (i = 19; i < 256; i++)
        same("A", "an unused place", result.leap[i].month, 0);
    end();

    begin("lists: read_text's refusals by place");
    text("6", LEAP_ENDS_EARLY, 1);
    text("6+", LEAP_ENDS_EARLY, 2);
    text("x", LEAP_NOT_ALLOWED, 0);
    text("+5?", LEAP_NOT_ALLOWED, 0);
    text("6x", LEAP_NOT_ALLOWED, 1);
    text("6++5?", LEAP_NOT_ALLOWED, 2);
    text("6+?", LEAP_NOT_ALLOWED, 2);
    text("6+05?", LEAP_BAD_GAP, 2);
    text("5?5?", LEAP_AFTER_END, 2);
    end();

    begin("lists: read_text at its limits");
    text("999+999+402?", LEAP_OK, 0);
    same("999+999+402?", "expiry", result.expiry_mjd, MONTH_2400);
    text("999+999+403?", LEAP_PAST_LAST_MONTH, 11);
    text(repeated("1+", 256, "1?"), LEAP_OK, 0);
    gives("256 leaps", list_of_gaps(0, 1));
    text(repeated("1+", 257, "1?"), LEAP_TOO_MANY_LEAPS, 513);
    /* 2304 months after 256 leaps: 96 more is 2400, 97 more is past it first. */
    text(repeated("9+", 256, "96+1?"), LEAP_TOO_MANY_LEAPS, 514);
    text(repeated("9+", 256, "97+1?"), LEAP_PAST_LAST_MONTH, 514);
    text(repeated("9+", 256, "96?"), LEAP_OK, 0);
    same("9+ .. 96?", "expiry", result.expiry_mjd, MONTH_2400);
    end();
}

/* `count` bytes, then one or two more. */
static void nybble_run(uint8_t byte, size_t count, const uint8_t *tail, size_t tail_length,
                       uint8_t number, uint64_t place)
{
    static uint8_t list[1024];
    memset(list, byte, count);
    memcpy(list + count, tail, tail_length);
    nybbles("a run", list, count + tail_length, number, place);
}

static void reads_nybbles(void)
{
    static const uint8_t f4[] = {0xF4}, of[] = {0x0F}, d9[] = {0x9D}, f0[] = {0xF0};
    static const uint8_t after[] = {0xF4, 0x00}, after_odd[] = {0x0F, 0x40};
    static const uint8_t not_preferred[] = {0x95, 0xF4};
    static const uint8_t gap_999[] = {0x85, 0xF2}, gap_1000[] = {0x85, 0xF3}, more[] = {0x8F};
    static const uint8_t leap_1[] = {0xD0}, leap_96[] = {0x9F};
    static const leap_second at_36 = {36, 0};

    begin("lists: read_nybbles on P7 to P9");
    nybbles("F4", f4, 1, LEAP_OK, 0), gives("F4", schedule(0, NULL, MONTH_5));
    nybbles("0F", of, 1, LEAP_OK, 0), gives("0F", list_plus());
    nybbles("9D", d9, 1, LEAP_ENDS_EARLY, 2);
    nybbles("none", f4, 0, LEAP_ENDS_EARLY, 0);
    end();

    begin("lists: read_nybbles on list B");
    nybbles("B", B_NYBBLES, sizeof B_NYBBLES, LEAP_OK, 0);
    same("B", "last leap", result.leap[26].month, 540);
    gives("B", list_b());
    end();

    /* Month 41 is June 1975: three years, one of them a leap year, and 151 days. */
    begin("lists: read_nybbles takes a spelling that is not preferred");
    nybbles("95 F4", not_preferred, 2, LEAP_OK, 0), gives("95 F4", schedule(1, &at_36, 42564));
    end();

    begin("lists: read_nybbles at its limits");
    nybble_run(0x8F, 10, gap_999, 2, LEAP_OK, 0), gives("999", schedule(0, NULL, MONTH_999));
    nybble_run(0x8F, 10, gap_1000, 2, LEAP_BAD_GAP, 22);
    nybble_run(0x8F, 10, more, 1, LEAP_BAD_GAP, 20);         /* 1056 months */
    nybble_run(0x9F, 25, f0, 1, LEAP_PAST_LAST_MONTH, 50);   /* 25 x 96 is 2400 */
    nybble_run(0x9F, 25, leap_96, 1, LEAP_PAST_LAST_MONTH, 50);
    nybble_run(0xD0, 256, f0, 1, LEAP_OK, 0), gives("256 leaps", list_of_gaps(0, 1));
    nybble_run(0xD0, 256, leap_1, 1, LEAP_TOO_MANY_LEAPS, 512);
    nybbles("F4 00", after, 2, LEAP_AFTER_END, 2);
    nybbles("0F 40", after_odd, 2, LEAP_AFTER_END, 3);
    end();
}

static void writers(void)
{
    static const uint8_t expiry_999[] = {0x8F, 0x8F, 0x8F, 0x8F, 0x8F, 0x8F,
                                         0x8F, 0x8F, 0x8F, 0x8F, 0x85, 0xF2};
    static const uint8_t padded[] = {0x90, 0xF4}, minus[] = {0xA0, 0xF4};
    leap_schedule a, b = list_b(), longest;

    begin("lists: write_text");
    text(A_TEXT, LEAP_OK, 0);
    a = result;
    writes_all(leap_write_text, "A", a, A_TEXT, sizeof A_TEXT - 1);
    writes_all(leap_write_text, "B", b, B_TEXT, sizeof B_TEXT - 1);
    writes_all(leap_write_text, "6-5?", list_n(), "6-5?", 4);
    writes_all(leap_write_text, "999?", schedule(0, NULL, MONTH_999), "999?", 4);
    end();

    begin("lists: write_nybbles");
    writes_all(leap_write_nybbles, "A", a, A_NYBBLES, sizeof A_NYBBLES);
    writes_all(leap_write_nybbles, "B", b, B_NYBBLES, sizeof B_NYBBLES);
    writes_all(leap_write_nybbles, "6+5?", list_plus(), padded, sizeof padded);
    writes_all(leap_write_nybbles, "6-5?", list_n(), minus, sizeof minus);
    writes_all(leap_write_nybbles, "999?", schedule(0, NULL, MONTH_999), expiry_999,
               sizeof expiry_999);
    end();

    /* A gap takes two bytes and one more from 10 months on: 238 gaps of 10 and
     * 19 of 1 are 257 gaps and 2399 months; another 10 would pass 2400. In
     * nybbles it takes two and two more from 17 months on: 133 gaps of 17 and
     * 124 of 1 are 2385 months; another 17 would pass 2400. Month 2385 is October
     * 2170, 92 + 365 days before month 2400. */
    begin("lists: the room that holds any list");
    longest = list_of_gaps(238, 10);
    same("238 gaps of 10", "expiry", longest.expiry_mjd, MONTH_2399);
    writes(leap_write_text, "longest", longest, LEAP_TEXT_ROOM, LEAP_OK, NULL, 752);
    writes(leap_write_text, "longest", longest, LEAP_TEXT_ROOM - 1, LEAP_OUTPUT_SHORT, NULL, 0);
    longest = list_of_gaps(133, 17);
    same("133 gaps of 17", "expiry", longest.expiry_mjd, MONTH_2400 - 457);
    writes(leap_write_nybbles, "longest", longest, LEAP_NYBBLES_ROOM, LEAP_OK, NULL, 390);
    writes(leap_write_nybbles, "longest", longest, LEAP_NYBBLES_ROOM - 1, LEAP_OUTPUT_SHORT,
           NULL, 0);
    end();
}

/* Rounded down to its month the expiry is this list's, in both formats. */
static void rounds(const char *name, leap_schedule s, const char *list, const char *codes)
{
    writes_all(leap_write_text, name, s, list, strlen(list));
    writes_all(leap_write_nybbles, name, s, codes, strlen(codes));
}

/* Refused with 17 in every room, by both writers. */
static void no_gap(const char *name, leap_schedule s)
{
    static const size_t ROOMS[] = {0, 1, 2, 3, 4, LEAP_NYBBLES_ROOM, LEAP_TEXT_ROOM};
    size_t i;
    for (i = 0; i < sizeof ROOMS / sizeof *ROOMS; i++) {
        writes(leap_write_text, name, s, ROOMS[i], LEAP_NO_GAP, NULL, 0);
        writes(leap_write_nybbles, name, s, ROOMS[i], LEAP_NO_GAP, NULL, 0);
    }
}

/* Refused with 11 in every room, by both writers. */
static void not_well_formed(const char *name, leap_schedule s)
{
    size_t room;
    for (room = 0; room < 20; room += 4) {
        writes(leap_write_text, name, s, room, LEAP_NOT_WELL_FORMED, NULL, 0);
        writes(leap_write_nybbles, name, s, room, LEAP_NOT_WELL_FORMED, NULL, 0);
    }
}

static void rounded_down(void)
{
    static const leap_second far[2] = {{999, 0}, {1998, 0}};
    static const leap_second end_2399[3] = {{999, 0}, {1998, 0}, {2399, 1}};
    static const char TENS[] = "\x8F\x8F\x8F\x8F\x8F\x8F\x8F\x8F\x8F\x8F\x85\xF2";
    uint32_t mjd;

    /* Month 0 is 41317 to 41347, month 1 up to 41376; month 6 is 41499 to 41529, month
     * 7 from MONTH_7 on, month 11 from MONTH_11 up to 41682. */
    begin("lists: writers refuse an expiry in the last leap's month, or in month 0");
    not_well_formed("41317", schedule(0, NULL, 41317));
    for (mjd = 41318; mjd <= 41347; mjd++)
        no_gap("41318 to 41347", schedule(0, NULL, mjd));
    not_well_formed("6+, 41499", schedule(1, &PLUS_6, MONTH_6));
    for (mjd = MONTH_6 + 1; mjd < MONTH_7; mjd++) {
        no_gap("6+, month 6", schedule(1, &PLUS_6, mjd));
        no_gap("6-, month 6", schedule(1, &MINUS_6, mjd));
    }
    no_gap("2399-, its second day", schedule(3, end_2399, MONTH_2399 + 1));
    no_gap("2399-, its last day", schedule(3, end_2399, MONTH_2400 - 1));
    end();

    begin("lists: writers round an expiry down to its month");
    for (mjd = MONTH_1; mjd < MONTH_2; mjd++)
        rounds("month 1", schedule(0, NULL, mjd), "1?", "\xF0");
    for (mjd = MONTH_7; mjd < MONTH_7 + 31; mjd++)
        rounds("6-, month 7", schedule(1, &MINUS_6, mjd), "6-1?", "\xA0\xF0");
    rounds("28 December 1972", schedule(1, &PLUS_6, 41679), "6+5?", "\x90\xF4");
    rounds("31 December 1972", schedule(1, &PLUS_6, 41682), "6+5?", "\x90\xF4");
    rounds("1 January 1973", schedule(1, &PLUS_6, 41683), "6+6?", "\x90\xB0");
    end();

    /* Month 999 has 30 days, up to 71752. MJD 114365 is in month 2399, 401 months after
     * month 1998. */
    begin("lists: writers at the last days that may be an expiry");
    rounds("71752", schedule(0, NULL, 71752), "999?", TENS);
    not_well_formed("71753", schedule(0, NULL, 71753));
    writes_all(leap_write_text, "114366", schedule(2, far, 114366), "999+999+402?", 12);
    writes_all(leap_write_text, "114365", schedule(2, far, 114365), "999+999+401?", 12);
    not_well_formed("114367", schedule(2, far, 114367));
    end();
}

/* What is written reads back as the list rounded down, and the list extends that. */
static void back(const char *name, leap_schedule s, uint32_t expiry_mjd)
{
    static uint8_t list[LEAP_TEXT_ROOM];
    leap_schedule want = s;
    uint64_t length;
    uint8_t yes;
    want.expiry_mjd = expiry_mjd;
    same(name, "number of write_text", leap_write_text(&s, list, sizeof list, &length), LEAP_OK);
    reads(leap_read_text, name, list, length, LEAP_OK, 0), gives(name, want);
    same(name, "number of write_nybbles", leap_write_nybbles(&s, list, sizeof list, &length),
         LEAP_OK);
    reads(leap_read_nybbles, name, list, length, LEAP_OK, 0), gives(name, want);
    same(name, "number of extends", leap_extends(&s, &want, &yes), LEAP_OK);
    same(name, "the exact one extends it", yes, 1);
    same(name, "number of extends", leap_extends(&want, &s, &yes), LEAP_OK);
    same(name, "it extends the exact one", yes, s.expiry_mjd == expiry_mjd);
}

static void reads_back(void)
{
    leap_schedule b = list_b();
    uint32_t day;
    begin("lists: what is written reads back rounded down, and is extended");
    for (day = 0; day < 31; day++) {
        b.expiry_mjd = MONTH_599 + day; /* December 2021 */
        back("B", b, MONTH_599);
        back("6-", schedule(1, &MINUS_6, MONTH_11 + day), MONTH_11);
    }
    back("to 71752", schedule(0, NULL, 71752), MONTH_999);
    back("to 71723", schedule(0, NULL, 71723), MONTH_999);
    end();
}

int main(void)
{
    new_areas();
    numbers();
    reads_text();
    reads_nybbles();
    writers();
    rounded_down();
    reads_back();
    return 0;
}
