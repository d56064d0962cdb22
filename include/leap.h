/* leap.h: leap second lists, TAI, UTC and smoothed time (UTS).
 *
 * Link with target/staticlib/libleap.a, which `tools/build archive` makes.
 *
 *     leap_schedule s;
 *     uint64_t place, nanos;
 *     static const uint8_t list[] = "6+5?";
 *     uint8_t no = leap_read_text(list, sizeof list - 1, &s, &place);
 *     if (no != LEAP_OK)
 *         fprintf(stderr, "refused with %d at byte %d\n", (int)no, (int)place);
 *     no = leap_utc_to_uts(&s, 41498, UINT64_C(86400000000), &nanos);
 *     if (no == LEAP_OK)
 *         assert(nanos == UINT64_C(86399001000000));
 *
 * A call returns LEAP_OK (0) with an answer, or the number of a refusal, and
 * sets every output. On a refusal the numbers asked for are 0, a schedule that is
 * read is blank (all 514 words 0), a part has no bytes, and a writer's buffer and
 * the two schedules of a replay are left as they were; a reader's *place is where
 * it stopped, and 0 if the list is taken. A call whose name ends in _many returns
 * a count instead, puts what one call would return into its array `numbers`, and
 * sets the elements of each output below that count.
 *
 * No pointer may be null. An empty input or output may be given as any pointer
 * that isn't null, with length 0. Pointers must be aligned for their type. An
 * output must not overlap another output or an input. Calls keep no state, so
 * threads may call at the same time; no call uses more than 64 KiB of stack.
 */
#ifndef LEAP_H
#define LEAP_H

#include <stddef.h>
#include <stdint.h>

#ifdef __cplusplus
extern "C" {
#endif

/* The version of this interface. In version 1, which had no such name, the last
 * word of a leap_schedule was `expiry`, a month number; now it is `expiry_mjd`, a
 * day. Every month number is a day before 1972, so a stored binary leap_schedule
 * of version 1 is refused with 11 by every call that looks at it (in a replay a Q
 * prints "!11"), and never misread. Read the list again in its place. */
#define LEAP_API_VERSION 2

/* What a call returns, or puts into `numbers`. */
enum { /* the refusals */
    LEAP_OK = 0,               /* an answer */
    LEAP_ENDS_EARLY = 1,       /* the list ends early */
    LEAP_NOT_ALLOWED = 2,      /* a byte that is not allowed there */
    LEAP_BAD_GAP = 3,          /* a gap malformed or over 999 months */
    LEAP_PAST_LAST_MONTH = 4,  /* past month 2400, January 2172 */
    LEAP_TOO_MANY_LEAPS = 5,   /* more than 256 leaps */
    LEAP_AFTER_END = 6,        /* something after the end */
    LEAP_OUTPUT_SHORT = 7,     /* the output is shorter than the list, or than
                                  the comparison of two lists, or than what a
                                  line of a trace may print */
    LEAP_BEFORE_1972 = 8,      /* before 1972: an MJD under 41317, or a TAI
                                  under 10,000,000 */
    LEAP_NO_INSTANT = 9,       /* no such instant */
    LEAP_NOT_KNOWN = 10,       /* expired or not yet known */
    LEAP_NOT_WELL_FORMED = 11, /* the schedule is not well formed */
    LEAP_CONTRADICTION = 16,   /* two lists contradict each other */
    LEAP_NO_GAP = 17,          /* rounding the expiry down to its month leaves
                                  a gap of 0 */
    LEAP_NO_LINE = 20          /* no line of a trace (printed, returned by no
                                  call) */
};

enum {
    LEAP_MAX_LEAPS = 256,
    LEAP_TEXT_ROOM = 752,        /* bytes that hold any list as text */
    LEAP_NYBBLES_ROOM = 390,     /* bytes that hold any list as nybbles */
    LEAP_COMPARISON_ROOM = 4633, /* bytes that hold any comparison */
    LEAP_REPLAY_ROOM = 22,       /* bytes that hold what any line of a trace prints */
    LEAP_REPLAY_HELD = 4097      /* bytes to keep, at most, of a line that is not complete */
};

/* A leap second at the end of the day before a month starts. Month 0 is
 * January 1972. `negative` is 0 for an inserted second and 1 for a deleted one;
 * a schedule with another value, also in an unused place, is not well formed. */
typedef struct {
    uint32_t month, negative;
} leap_second;

/* A list of `count` leap seconds. From the day `expiry_mjd` on nothing is known. It
 * is well formed if the count is at most 256, the months strictly rise, each gap
 * (from month 0 to the first leap, from leap to leap) is 1 to 999, the expiry is
 * later than the first day of the last leap's month (of month 0 if there is none)
 * and in a month at most 999 after that one, the expiry is at most 114366 (the
 * first day of month 2400), and unused places hold zeros. Words of any value may be
 * given: none is cut to fewer bits. */
typedef struct {
    leap_second leap[256];
    uint32_t count, expiry_mjd;
} leap_schedule;

/* The layout: 514 words of 32 bits, with no padding. */
typedef char leap_schedule_is_514_words[sizeof(leap_schedule) == 514 * 4 ? 1 : -1];
typedef char leap_count_is_word_512[offsetof(leap_schedule, count) == 512 * 4 ? 1 : -1];
typedef char leap_expiry_is_word_513[offsetof(leap_schedule, expiry_mjd) == 513 * 4 ? 1 : -1];
typedef char leap_second_is_2_words[sizeof(leap_second) == 2 * 4 ? 1 : -1];
typedef char leap_sign_is_word_1[offsetof(leap_second, negative) == 4 ? 1 : -1];

/* A part of bytes that the caller has: its start and its length. */
typedef struct {
    const uint8_t *start;
    size_t length;
} leap_part;

/* The layout: a pointer and a length, with no padding. */
typedef char leap_part_is_2_values[sizeof(leap_part) == sizeof(void *) + sizeof(size_t) ? 1 : -1];
typedef char leap_length_is_value_1[offsetof(leap_part, length) == sizeof(void *) ? 1 : -1];

/* Reads a text list, such as "6+12-5?", into *out. It expires on the first day of
 * a month. Refuses with 1, 2, 3, 4, 5 or 6, and *place is then the byte it stopped
 * at (the length, for 1). */
uint8_t leap_read_text(const uint8_t *bytes, size_t length,
                       leap_schedule *out, uint64_t *place);

/* Reads a nybble list, upper half of each byte first, into *out. It expires on the
 * first day of a month. Refuses with 1, 3, 4, 5 or 6, and *place is then the nybble
 * it stopped at (the first of the refused code; the nybble count, for 1). */
uint8_t leap_read_nybbles(const uint8_t *bytes, size_t length,
                          leap_schedule *out, uint64_t *place);

/* Writes the schedule's text list, with no 0 at its end, to the start of the
 * `room` bytes at out, and its length to *written; bytes beyond that stay. The
 * expiry is rounded down to its month: a schedule that expires on the first of a
 * month reads back as itself, and any other as one that it extends. Refuses, in
 * this order, with 11 (not well formed), 17 (rounding down leaves a gap of 0: the
 * expiry is in the last leap's month, or in month 0) or 7 (room too small). */
uint8_t leap_write_text(const leap_schedule *s,
                        uint8_t *out, size_t room, uint64_t *written);

/* Writes the schedule's nybble list as leap_write_text writes its text list,
 * with the same refusals. */
uint8_t leap_write_nybbles(const leap_schedule *s,
                           uint8_t *out, size_t room, uint64_t *written);

/* Two lists. The longer one extends the shorter if its leaps in months that start
 * before the shorter one's expiry day are all of the shorter one's leaps, equal in
 * month and sign, and it expires on no earlier day. It then gives every answer that
 * the shorter gives, and equal lists extend each other. Where neither extends the
 * other they contradict: some date has a DTAI under both, and the two differ. */

/* Compares two text lists. For each month, rising, at which either has a leap
 * and their marks differ, it writes a line: the month, the first list's mark and
 * the second's. A mark is +, - or 0 (no leap), or ? in a month that starts on or
 * after that list's expiry day. Then, if the expiries differ, a line of = and both,
 * as MJDs. The last line is "same", "extends 1" (the first extends the second),
 * "extends 2" or "contradict". For "6+6+5?" and "6+12+5?" the lines are
 *
 *     12 + 0
 *     18 ? +
 *     = 41834 42017
 *     contradict
 *
 * Each is ended by a newline, and no 0 follows. They are written to the start of
 * the `room` bytes at out, and their length to *written; bytes beyond that stay.
 * LEAP_COMPARISON_ROOM is room for any two lists. Refuses, in this order, with
 * 1, 2, 3, 4, 5 or 6 (the first list does not read), the same (the second does
 * not) or 7 (room too small). It says neither which list does not read nor where:
 * leap_read_text does. */
uint8_t leap_compare_text(const uint8_t *first, size_t first_length,
                          const uint8_t *second, size_t second_length,
                          uint8_t *out, size_t room, uint64_t *written);

/* Of two text lists that don't contradict, hands back the caller's own bytes of
 * the longer one: *part is {first, first_length} if the first extends the second,
 * so also if they are the same, and {second, second_length} if only the second
 * extends the first. Refuses, in this order, with 1, 2, 3, 4, 5 or 6 (the first
 * list does not read), the same (the second does not) or 16 (they contradict);
 * *part is then {first, 0}.
 *
 * The call sets *part and does not look at what it held. All the same give it a
 * part before the call, {first, 0} will do: in the language that the archive is
 * written in, what is lent always holds a valid part. */
uint8_t leap_longer_text(const uint8_t *first, size_t first_length,
                         const uint8_t *second, size_t second_length,
                         leap_part *part);

/* Whether `longer` extends `shorter`: *yes is 1 if it does, else 0. With the list
 * offered as `longer` and the stored one as `shorter` it answers "may I replace
 * my stored list by this one?": only by one that extends it, since that one keeps
 * every answer given so far. Refuses with 11 (either schedule is not well formed,
 * as the blank one of a terminal that has stored no list yet is not). */
uint8_t leap_extends(const leap_schedule *longer, const leap_schedule *shorter,
                     uint8_t *yes);

/* The times. A day is a Modified Julian Day (MJD 41317 is 1 January 1972).
 * UTC counts microseconds of a day of 86,399, 86,400 or 86,401 seconds; UTS
 * counts nanoseconds of a day of always 86,400 seconds; TAI counts microseconds
 * from 1972-01-01 00:00:00 TAI. Let Z be the last day before the expiry: its DTAI
 * is known. If the expiry is the first of a month, Z may end with a leap, so its
 * length is not known, and questions about instants have a cut-off on Z. If not, Z
 * is a day of 86,400 seconds, known whole, and has no cut-off. */

/* TAI minus UTC on a day, in seconds; it may be below zero. Refuses, in this
 * order, with 11 (not well formed), 8 (before 1972) or 10 (after Z). */
uint8_t leap_dtai(const leap_schedule *s, uint64_t mjd, int32_t *dtai);

/* The TAI of a UTC instant. Refuses, in this order, with 11 (not well formed),
 * 8 (before 1972), 9 (micros is 86,401,000,000 or more), 10 (after Z, or on Z from
 * its cut-off, 86,399,000,000, on) or 9 (micros is the day's length or more). */
uint8_t leap_utc_to_tai(const leap_schedule *s, uint64_t mjd, uint64_t micros,
                        uint64_t *tai);

/* The UTC instant with this TAI. Refuses, in this order, with 11 (not well
 * formed), 8 (TAI under 10,000,000) or 10 (not below the TAI of Z at its cut-off,
 * 86,399,000,000, or at its end if it has none). */
uint8_t leap_tai_to_utc(const leap_schedule *s, uint64_t tai,
                        uint64_t *mjd, uint64_t *micros);

/* The UTS of a UTC instant, on the same day. Refuses, in this order, with 11
 * (not well formed), 8 (before 1972), 9 (micros is 86,401,000,000 or more), 10
 * (after Z, or on Z from its cut-off, 85,399,000,000, on) or 9 (micros is the day's
 * length or more). */
uint8_t leap_utc_to_uts(const leap_schedule *s, uint64_t mjd, uint64_t micros,
                        uint64_t *nanos);

/* The greatest UTC microseconds of the day whose UTS is not above nanos.
 * Refuses, in this order, with 11 (not well formed), 8 (before 1972), 9 (nanos
 * is 86,400,000,000,000 or more) or 10 (after Z, or on Z from its cut-off,
 * 85,399,000,000,000, on). */
uint8_t leap_uts_to_utc(const leap_schedule *s, uint64_t mjd, uint64_t nanos,
                        uint64_t *micros);

/* Many questions under one list. A call asks the question of its name once for
 * each element, and sets numbers[i], and element i of each other output, to what
 * the call for one question returns and sets: LEAP_OK and the answer, or the
 * number of the refusal and 0. So under a list that is not well formed all
 * numbers are 11 and all answers 0.
 *
 * Each array is followed by its length, in elements. The call returns how many
 * were asked, answered or refused: the shortest of the lengths. Elements beyond
 * that stay as they were. No output may overlap another array or the schedule.
 * The list is checked and prepared once, which takes longer than one question;
 * after that an instant takes a few nanoseconds, or some more where the list's
 * leaps stand only months apart.
 */

/* TAI minus UTC on each day, in seconds: leap_dtai. */
uint64_t leap_dtai_many(const leap_schedule *s,
                        const uint64_t *mjd, size_t mjd_length,
                        uint8_t *numbers, size_t numbers_length,
                        int32_t *dtai, size_t dtai_length);

/* The TAI of each UTC instant, micros[i] on day mjd[i]: leap_utc_to_tai. */
uint64_t leap_utc_to_tai_many(const leap_schedule *s,
                              const uint64_t *mjd, size_t mjd_length,
                              const uint64_t *micros, size_t micros_length,
                              uint8_t *numbers, size_t numbers_length,
                              uint64_t *tai, size_t tai_length);

/* The UTC instant with each TAI, micros[i] on day mjd[i]: leap_tai_to_utc. */
uint64_t leap_tai_to_utc_many(const leap_schedule *s,
                              const uint64_t *tai, size_t tai_length,
                              uint8_t *numbers, size_t numbers_length,
                              uint64_t *mjd, size_t mjd_length,
                              uint64_t *micros, size_t micros_length);

/* The UTS of each UTC instant, on the same day: leap_utc_to_uts. */
uint64_t leap_utc_to_uts_many(const leap_schedule *s,
                              const uint64_t *mjd, size_t mjd_length,
                              const uint64_t *micros, size_t micros_length,
                              uint8_t *numbers, size_t numbers_length,
                              uint64_t *nanos, size_t nanos_length);

/* The greatest UTC microseconds of each day mjd[i] whose UTS is not above
 * nanos[i]: leap_uts_to_utc. */
uint64_t leap_uts_to_utc_many(const leap_schedule *s,
                              const uint64_t *mjd, size_t mjd_length,
                              const uint64_t *nanos, size_t nanos_length,
                              uint8_t *numbers, size_t numbers_length,
                              uint64_t *micros, size_t micros_length);

/* A trace is what a branch did in a day, a line for each thing done. A line is
 * ended by a newline, and is one of
 *
 *     L 6+5?               use this text list, all that follows the space
 *     S                    store the current list
 *     Z                    reset: back to the stored list
 *     Q 41498 86400000000  smoothed time: the UTS of a UTC instant
 *
 * with exactly one space between the fields. Both numbers of a Q are decimal, of
 * 1 to 18 digits, and may start with zeros. A Q prints the MJD and the UTS
 * nanoseconds, here "41498 86399001000000", with no leading zeros, or "!" and the
 * number that leap_utc_to_uts refuses with under the current list. An L whose
 * list does not read prints "!" and its number (1, 2, 3, 4, 5 or 6) and keeps the
 * current list; any other L, an S and a Z print nothing. What is none of these
 * lines prints "!20" and changes nothing: an empty line too, one of more than
 * 4,096 bytes before its newline, one with a carriage return or a further space
 * at its end, and what stands after the last newline. (In an L such an end is a
 * part of the list.) Each thing printed is one line, ended by a newline, and no 0
 * follows. */

/* Replays the complete lines of a piece of a trace, one after the other, as long
 * as LEAP_REPLAY_ROOM bytes of the output are left: *used is how many bytes of the
 * trace they are, newlines included, and *written how many bytes they printed, at
 * the start of the `room` bytes at out; bytes beyond that stay. A piece without a
 * complete line is no refusal: *used is then 0. What is not used is the caller's
 * to hand in again, before the bytes that come next; of a line that is not
 * complete its first LEAP_REPLAY_HELD bytes are enough, since it is too long then.
 *
 * *current and *stored are all that a day's replay remembers, and both are blank
 * (all words 0) at its start. Words of any value may be given: an S or a Z copies
 * them as they are, and under words that are not well formed, as blank ones
 * aren't, every Q prints "!11". A trace may be cut at any newline and go on later
 * from the two schedules. So with fixed buffers, a trace of any length:
 *
 *     static leap_schedule current, stored;
 *     static uint8_t trace[LEAP_REPLAY_HELD + 4096], out[4096];
 *     uint64_t used, written;
 *     size_t start, held = 0, got;
 *     while ((got = fread(trace + held, 1, sizeof trace - held, stdin)) > 0) {
 *         start = 0, held += got;
 *         do {
 *             leap_replay(&current, &stored, trace + start, held - start,
 *                         out, sizeof out, &used, &written);
 *             fwrite(out, 1, written, stdout);
 *             start += used;
 *         } while (used > 0);
 *         held -= start;
 *         if (held > LEAP_REPLAY_HELD)
 *             held = LEAP_REPLAY_HELD;
 *         memmove(trace, trace + start, held);
 *     }
 *     leap_replay_end(trace, held, out, sizeof out, &written);
 *     fwrite(out, 1, written, stdout);
 *
 * Refuses with 7 if room is less than LEAP_REPLAY_ROOM, whatever the trace is:
 * *used and *written are then 0, and *current, *stored and out stay. */
uint8_t leap_replay(leap_schedule *current, leap_schedule *stored,
                    const uint8_t *trace, size_t length,
                    uint8_t *out, size_t room, uint64_t *used, uint64_t *written);

/* Writes what the end of a trace prints, `left` being what stands after its last
 * newline: nothing if that is empty, else "!20" and a newline, since it is a line
 * that lacks its own. The length is *written; bytes beyond that stay. Refuses with
 * 7 if room is less than that. */
uint8_t leap_replay_end(const uint8_t *left, size_t length,
                        uint8_t *out, size_t room, uint64_t *written);

#ifdef __cplusplus
}
#endif

#endif
