/* tzdata FILE LIST: the official leap second table, FILE, against the text list
 * LIST. The file becomes a schedule that expires on the file's own day; one of the
 * two lists must extend the other, and every day that both know must have one DTAI:
 * the file's own, and that of either list. The last day before the file's expiry is
 * answered to its end, unless that is the first of a month; and written as a list the
 * schedule reads back rounded down to the month, and extends that. */
#include <inttypes.h>
#include <stdio.h>
#include <stdlib.h>
#include <string.h>

#include "days.h"
#include "leap.h"

#define DAY UINT64_C(86400000000)

enum { MOST = 300, FIRST_MJD = 41317 };

static void stop(const char *why)
{
    printf("FAILED tzdata: %s\n", why);
    exit(1);
}

/* The file's lines: from that day on, that DTAI. */
static struct {
    uint64_t mjd;
    int32_t dtai;
} line[MOST];
static int lines;
static uint64_t expiry_mjd;

/* Seconds since 1900, as the file has them, are days since MJD 15020. */
static uint64_t mjd_of_seconds(uint64_t seconds)
{
    return 15020 + seconds / 86400;
}

static void read_file(const char *path)
{
    char text[1024];
    FILE *file = fopen(path, "r");
    if (file == NULL)
        stop("the file does not open");
    while (fgets(text, sizeof text, file) != NULL) {
        uint64_t seconds;
        int32_t dtai;
        if (sscanf(text, "#@ %" SCNu64, &seconds) == 1)
            expiry_mjd = mjd_of_seconds(seconds);
        else if (text[0] != '#' && sscanf(text, "%" SCNu64 " %" SCNd32, &seconds, &dtai) == 2) {
            if (lines == MOST || seconds % 86400 != 0)
                stop("a line of the file is not as expected");
            line[lines].mjd = mjd_of_seconds(seconds);
            line[lines++].dtai = dtai;
        }
    }
    fclose(file);
    if (lines == 0 || line[0].mjd != FIRST_MJD || line[0].dtai != 10 || expiry_mjd == 0)
        stop("the file does not start with 10 on 1 January 1972, or has no expiry");
}

/* The month that a day lies in, counted from January 1972. */
static uint32_t month_of(uint64_t mjd)
{
    uint32_t month = 0;
    while (month < 2400 && first_day(month + 1) <= mjd)
        month++;
    return month;
}

static leap_schedule file_schedule(void)
{
    leap_schedule s;
    int i;
    memset(&s, 0, sizeof s);
    for (i = 1; i < lines && i <= 256; i++) {
        int32_t step = line[i].dtai - line[i - 1].dtai;
        s.leap[i - 1].month = month_of(line[i].mjd);
        s.leap[i - 1].negative = step == -1;
        if (first_day(s.leap[i - 1].month) != line[i].mjd || (step != 1 && step != -1))
            stop("a leap of the file is not one second at a month's start");
    }
    s.count = (uint32_t)(lines - 1);
    s.expiry_mjd = (uint32_t)expiry_mjd;
    return s;
}

/* The file's DTAI on a day, by its lines alone. */
static int32_t file_dtai(uint64_t mjd)
{
    int i = lines - 1;
    while (line[i].mjd > mjd)
        i--;
    return line[i].dtai;
}

/* The words of 01 and of request 10/14: the longer one's leaps in months that start
 * before the shorter one's expiry day are the shorter one's leaps, and its expiry is no
 * earlier. The call must say the same. */
static int extends(const leap_schedule *longer, const leap_schedule *shorter)
{
    uint32_t known = 0;
    uint8_t yes;
    int in_words;
    while (known < longer->count && first_day(longer->leap[known].month) < shorter->expiry_mjd)
        known++;
    in_words = known == shorter->count && longer->expiry_mjd >= shorter->expiry_mjd
               && memcmp(longer->leap, shorter->leap, known * sizeof(leap_second)) == 0;
    if (leap_extends(longer, shorter, &yes) != LEAP_OK || yes != in_words)
        stop("leap_extends says otherwise");
    return in_words;
}

/* Whether a UTC instant has that number, and if it is LEAP_OK these TAI and UTS, and
 * goes back to itself. */
static int answered(const leap_schedule *s, uint64_t mjd, uint64_t micros, uint8_t number,
                    uint64_t want_tai)
{
    uint64_t tai, nanos, day, back, unsmoothed;
    if (leap_utc_to_tai(s, mjd, micros, &tai) != number
        || leap_utc_to_uts(s, mjd, micros, &nanos) != number)
        return 0;
    if (number != LEAP_OK)
        return 1;
    return tai == want_tai && nanos == 1000 * micros
           && leap_tai_to_utc(s, tai, &day, &back) == LEAP_OK && day == mjd && back == micros
           && leap_uts_to_utc(s, mjd, nanos, &unsmoothed) == LEAP_OK && unsmoothed == micros;
}

/* The day before the expiry, to its end or to its cut-offs. */
static void last_day(const leap_schedule *s)
{
    uint64_t z = expiry_mjd - 1, ignored, more;
    uint64_t midnight = DAY * (z - FIRST_MJD) + UINT64_C(1000000) * (uint64_t)file_dtai(z);
    int is_first = first_day(month_of(expiry_mjd)) == expiry_mjd;
    if (is_first) {
        if (!answered(s, z, UINT64_C(85398999999), LEAP_OK, midnight + UINT64_C(85398999999))
            || !answered(s, z, UINT64_C(86399000000), LEAP_NOT_KNOWN, 0))
            stop("the day before the expiry is not cut off");
    } else {
        if (!answered(s, z, DAY / 2, LEAP_OK, midnight + DAY / 2)
            || !answered(s, z, DAY - 1, LEAP_OK, midnight + DAY - 1)
            || !answered(s, z, DAY, LEAP_NO_INSTANT, 0)
            || leap_tai_to_utc(s, midnight + DAY, &ignored, &more) != LEAP_NOT_KNOWN)
            stop("the day before the expiry is not answered to its end");
    }
    if (!answered(s, expiry_mjd, 0, LEAP_NOT_KNOWN, 0))
        stop("the expiry day is known");
    printf("ok tzdata: the day before the expiry, %s\n",
           is_first ? "which is the first of a month" : "to its end");
}

typedef uint8_t writer(const leap_schedule *, uint8_t *, size_t, uint64_t *);
typedef uint8_t reader(const uint8_t *, size_t, leap_schedule *, uint64_t *);

/* Written and read back it is rounded down to the month, and extends that. */
static void rounded(const leap_schedule *s, writer *write, reader *read)
{
    static uint8_t list[LEAP_TEXT_ROOM];
    leap_schedule back, want = *s;
    uint64_t length, place;
    want.expiry_mjd = first_day(month_of(expiry_mjd));
    if (write(s, list, sizeof list, &length) != LEAP_OK
        || read(list, length, &back, &place) != LEAP_OK || memcmp(&back, &want, sizeof back) != 0)
        stop("written as a list it does not read back rounded down");
    if (!extends(s, &back) || (extends(&back, s) && back.expiry_mjd != s->expiry_mjd))
        stop("the exact one does not extend the one rounded down, or is extended by it");
}

int main(int argc, char **argv)
{
    leap_schedule official, list;
    uint64_t place, mjd;
    if (argc != 3)
        stop("usage: tzdata FILE LIST");
    read_file(argv[1]);
    official = file_schedule();
    if (leap_read_text((const uint8_t *)argv[2], strlen(argv[2]), &list, &place) != LEAP_OK)
        stop("the list does not read");
    printf("the file has %d leaps and MJD %d, the list %d and MJD %d\n", (int)official.count,
           (int)official.expiry_mjd, (int)list.count, (int)list.expiry_mjd);

    if (!extends(&official, &list) && !extends(&list, &official))
        stop("neither of the two lists extends the other");
    printf("ok tzdata: one list extends the other\n");

    for (mjd = FIRST_MJD;; mjd++) {
        int32_t by_file, by_list;
        uint8_t a = leap_dtai(&official, mjd, &by_file), b = leap_dtai(&list, mjd, &by_list);
        if (a == LEAP_NOT_KNOWN || b == LEAP_NOT_KNOWN)
            break;
        if (a != LEAP_OK || b != LEAP_OK || by_file != by_list || by_file != file_dtai(mjd)) {
            printf("FAILED tzdata: on MJD %" PRIu64 " the file has %d, its schedule %d (%d), "
                   "the list %d (%d)\n", mjd, file_dtai(mjd), by_file, a, by_list, b);
            return 1;
        }
    }
    /* Both know at least the days up to the last leap. */
    if (mjd <= line[lines - 1].mjd)
        stop("too few days are known");
    printf("ok tzdata: DTAI on every day that both know\n");

    last_day(&official);
    rounded(&official, leap_write_text, leap_read_text);
    rounded(&official, leap_write_nybbles, leap_read_nybbles);
    printf("ok tzdata: as a list it reads back rounded down to the month, and extends that\n");
    return 0;
}
