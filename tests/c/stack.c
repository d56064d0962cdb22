/* How much stack each call of leap.h uses on its worst inputs.
 *
 * Each case runs in a thread whose stack was painted; what is no longer painted
 * was used, less what a thread that calls nothing uses. No case may use more
 * than 64 KiB. Then each runs once more, in a child process, in a thread with
 * PTHREAD_STACK_MIN and 64 KiB of stack. */
#define _DEFAULT_SOURCE
#include <pthread.h>
#include <stdio.h>
#include <stdlib.h>
#include <string.h>
#include <sys/mman.h>
#include <sys/wait.h>
#include <unistd.h>

#include "days.h"
#include "leap.h"

enum { LIMIT = 65536, PAINTED = 4 << 20, PAINT = 0xc5, INPUT = 1 << 20, MANY = 100000 };

/* What a case works on; none of it on the stack. Of many questions there are
 * more than 16 bits can count. */
static uint8_t input[INPUT], other[INPUT], output[LEAP_COMPARISON_ROOM];
static size_t length, other_length;
static leap_schedule schedule, read_back, shorter;
static leap_part part;
static uint8_t yes;
static uint64_t first, second, one, two;
static int32_t dtai, dtais[MANY];
static uint64_t firsts[MANY], seconds[MANY], ones[MANY], twos[MANY];
static uint8_t number, numbers[MANY];

static void nothing(void) {}
static void read_text(void) { number = leap_read_text(input, length, &read_back, &one); }
static void read_nybbles(void) { number = leap_read_nybbles(input, length, &read_back, &one); }
static void write_text(void) { number = leap_write_text(&schedule, output, sizeof output, &one); }
static void write_nybbles(void)
{
    number = leap_write_nybbles(&schedule, output, sizeof output, &one);
}
static void compare_text(void)
{
    number = leap_compare_text(input, length, other, other_length, output, sizeof output, &one);
}
static void longer_text(void)
{
    part.start = input, part.length = 0;
    number = leap_longer_text(input, length, other, other_length, &part);
}
static void extends(void) { number = leap_extends(&schedule, &shorter, &yes); }
static void replay(void)
{
    number = leap_replay(&schedule, &shorter, input, length, output, sizeof output, &one, &two);
}
static void replay_end(void)
{
    number = leap_replay_end(input, length, output, sizeof output, &one);
}
static void ask_dtai(void) { number = leap_dtai(&schedule, first, &dtai); }
static void utc_to_tai(void) { number = leap_utc_to_tai(&schedule, first, second, &one); }
static void tai_to_utc(void) { number = leap_tai_to_utc(&schedule, first, &one, &two); }
static void utc_to_uts(void) { number = leap_utc_to_uts(&schedule, first, second, &one); }
static void uts_to_utc(void) { number = leap_uts_to_utc(&schedule, first, second, &one); }

/* The number of the last of many questions, if all were asked. */
static void asked(uint64_t count) { number = count == MANY ? numbers[MANY - 1] : UINT8_MAX; }
static void dtai_many(void)
{
    asked(leap_dtai_many(&schedule, firsts, MANY, numbers, MANY, dtais, MANY));
}
static void utc_to_tai_many(void)
{
    asked(leap_utc_to_tai_many(&schedule, firsts, MANY, seconds, MANY, numbers, MANY, ones, MANY));
}
static void tai_to_utc_many(void)
{
    asked(leap_tai_to_utc_many(&schedule, firsts, MANY, numbers, MANY, ones, MANY, twos, MANY));
}
static void utc_to_uts_many(void)
{
    asked(leap_utc_to_uts_many(&schedule, firsts, MANY, seconds, MANY, numbers, MANY, ones, MANY));
}
static void uts_to_utc_many(void)
{
    asked(leap_uts_to_utc_many(&schedule, firsts, MANY, seconds, MANY, numbers, MANY, ones, MANY));
}

/* The input is `count` times the unit, then the tail. */
static void repeat(const char *unit, size_t unit_length, size_t count, const char *tail,
                   size_t tail_length)
{
    length = 0;
    while (count-- > 0) {
        memcpy(input + length, unit, unit_length);
        length += unit_length;
    }
    memcpy(input + length, tail, tail_length);
    length += tail_length;
}

#define REPEAT(unit, count, tail) repeat(unit, sizeof unit - 1, count, tail, sizeof tail - 1)

static void text_256(void) { REPEAT("1+", 256, "1?"); }
/* 238 gaps of 10 and 19 of 1: the longest list, of 2399 months. */
static void text_longest(void)
{
    REPEAT("10-", 238, "1+1+1+1+1+1+1+1+1+1+1+1+1+1+1+1+1+1+1?");
}
static void text_257(void) { REPEAT("1+", 257, "1?"); }
static void text_megabyte(void) { REPEAT("1+", INPUT / 2, ""); }
static void text_digits(void) { REPEAT("1", INPUT, ""); }
static void text_after(void) { REPEAT("5?", INPUT / 2, ""); }

/* The list made last is the other one too. */
static void twice(void)
{
    memcpy(other, input, length);
    other_length = length;
}
static void two_longest(void) { text_longest(), twice(); }
static void two_megabytes(void) { text_megabyte(), twice(); }
static void second_megabyte(void) { text_megabyte(), twice(), text_256(); }
/* The longest comparison: 256 leaps each, none shared; see compare.c. */
static void two_unlike(void)
{
    REPEAT("2+", 255, "892?");
    memmove(input + 4, input, length);
    memcpy(input, "998+", 4), length += 4;
    twice();
    memcpy(input, "999+", 4);
    memcpy(input + length - 4, "890?", 4);
}

static void nybbles_256(void) { REPEAT("\xd0", 256, "\xf0"); }
static void nybbles_00(void) { REPEAT("\x00", INPUT, ""); }
static void nybbles_88(void) { REPEAT("\x88", INPUT, ""); }
static void nybbles_ff(void) { REPEAT("\xff", INPUT, ""); }
static void nybbles_c0(void) { REPEAT("\xc0", INPUT, ""); }
/* 2400 codes of one month: 998 that go on and a leap, twice, and 402 more. */
static void nybbles_2400(void)
{
    memset(input, 0xc0, 2400);
    input[998] = input[1997] = 0xd0;
    input[2399] = 0xf0;
    length = 2400;
}

/* 256 leaps, the last negative; gaps of `wide` months as long as they fit. */
static void dense(uint32_t wide)
{
    uint32_t i, month = 0;
    memset(&schedule, 0, sizeof schedule);
    for (i = 0; i < 256; i++) {
        uint32_t left = 256 - i;
        schedule.leap[i].month = month += month + wide + left <= 2400 ? wide : 1;
        schedule.leap[i].negative = i == 255;
    }
    schedule.count = 256;
    schedule.expiry_mjd = first_day(month + 1);
}

static void dense_1(void) { dense(1); }
static void dense_10(void) { dense(10); }
static void dense_17(void) { dense(17); }
/* The last day of month 999. */
static void longest_gap(void)
{
    memset(&schedule, 0, sizeof schedule);
    schedule.expiry_mjd = MONTH_999 + 29;
}
static void no_gap(void) { dense(1), schedule.expiry_mjd--; }

/* 256 leaps, 9 months apart. The last, a negative one, is at month 2304, January
 * 2164. The 192 years before that have 47 leap days (2100 has none), 70,127 days
 * in all, so it is MJD 111444. DTAI is 265 up to there, and 264 from then on. */
static void ask(uint64_t a, uint64_t b)
{
    size_t i;
    dense(9), first = a, second = b;
    for (i = 0; i < MANY; i++)
        firsts[i] = a, seconds[i] = b, numbers[i] = UINT8_MAX;
}
static void ask_day(void) { ask(111443, 0); }
static void ask_micros(void) { ask(111443, UINT64_C(86398000000)); }
static void ask_nanos(void) { ask(111443, UINT64_C(86399999999999)); }
static void ask_tai(void) { ask(UINT64_C(86400000000) * (111444 - 41317) + 264000000, 0); }
static void ask_first(void) { ask(41317, 0); }
static void ask_far(void) { ask(UINT64_MAX, 0); }
/* Under an expiry 27 days later, 28 February 2164, the last microsecond of the day
 * before: 31 + 26 days after the last leap's month starts. */
static void ask_last(uint64_t a, uint64_t b) { ask(a, b), schedule.expiry_mjd += 27; }
static void last_micros(void) { ask_last(111501, UINT64_C(86399999999)); }
static void last_tai(void)
{
    ask_last(UINT64_C(86400000000) * (111502 - 41317) + 264000000 - 1, 0);
}
static void malformed(void) { ask_first(), schedule.leap[255].negative = 2; }
static void two_dense(void) { dense(9), shorter = schedule, schedule.expiry_mjd++; }
static void shorter_malformed(void) { two_dense(), shorter.leap[255].negative = 2; }

/* Traces, under 256 leaps. The longest list has 752 bytes; of the answers to its
 * questions those that fit are printed. */
static void trace_longest(void)
{
    text_longest();
    memmove(input + 2, input, length);
    memcpy(input, "L ", 2), length += 2;
    memcpy(input + length, "\nS\nZ\nQ 41317 0\n", 15), length += 15;
}
static void trace_asked(void) { dense(9), REPEAT("Q 111443 86398000000\n", INPUT / 21, ""); }
static void trace_malformed(void) { malformed(), REPEAT("Q 111443 86398000000\n", 100, ""); }
static void trace_stored(void) { dense(9), REPEAT("S\n", INPUT / 2, ""); }
static void trace_reset(void) { two_dense(), REPEAT("Z\n", INPUT / 2, ""); }
static void trace_lists(void) { dense(9), REPEAT("L 1+1?\n", INPUT / 7, ""); }
static void trace_empty_lines(void) { dense(9), REPEAT("\n", INPUT, ""); }
static void trace_long_line(void) { dense(9), REPEAT("L", INPUT - 1, "\n"); }
static void trace_no_line(void) { dense(9), REPEAT("1+", INPUT / 2, ""); }

static const struct {
    const char *name;
    void (*prepare)(void), (*call)(void);
    uint8_t number;
} cases[] = {
    {"read_text, 256 leaps", text_256, read_text, 0},
    {"read_text, the longest list", text_longest, read_text, 0},
    {"read_text, 257 leaps", text_257, read_text, 5},
    {"read_text, 1 MiB of 1+", text_megabyte, read_text, 5},
    {"read_text, 1 MiB of 1", text_digits, read_text, 3},
    {"read_text, 1 MiB of 5?", text_after, read_text, 6},
    {"read_nybbles, 256 leaps", nybbles_256, read_nybbles, 0},
    {"read_nybbles, 2400 codes", nybbles_2400, read_nybbles, 0},
    {"read_nybbles, 1 MiB of 00", nybbles_00, read_nybbles, 5},
    {"read_nybbles, 1 MiB of 88", nybbles_88, read_nybbles, 3},
    {"read_nybbles, 1 MiB of FF", nybbles_ff, read_nybbles, 6},
    {"read_nybbles, 1 MiB of C0", nybbles_c0, read_nybbles, 3},
    {"write_text, 256 leaps", dense_1, write_text, 0},
    {"write_text, the longest list", dense_10, write_text, 0},
    {"write_text, no gap", no_gap, write_text, 17},
    {"write_text, malformed", malformed, write_text, 11},
    {"write_nybbles, 256 leaps", dense_1, write_nybbles, 0},
    {"write_nybbles, the longest list", dense_17, write_nybbles, 0},
    {"write_nybbles, a gap of 999", longest_gap, write_nybbles, 0},
    {"write_nybbles, no gap", no_gap, write_nybbles, 17},
    {"write_nybbles, malformed", malformed, write_nybbles, 11},
    {"compare_text, the longest output", two_unlike, compare_text, 0},
    {"compare_text, the longest lists", two_longest, compare_text, 0},
    {"compare_text, 1 MiB of 1+ twice", two_megabytes, compare_text, 5},
    {"compare_text, 1 MiB as the second", second_megabyte, compare_text, 5},
    {"longer_text, the longest lists", two_longest, longer_text, 0},
    {"longer_text, 256 leaps, none shared", two_unlike, longer_text, 16},
    {"longer_text, 1 MiB as the second", second_megabyte, longer_text, 5},
    {"extends, 256 leaps", two_dense, extends, 0},
    {"extends, malformed", shorter_malformed, extends, 11},
    {"replay, the longest list", trace_longest, replay, 0},
    {"replay, 1 MiB of Q, 256 leaps", trace_asked, replay, 0},
    {"replay, Q, malformed", trace_malformed, replay, 0},
    {"replay, 1 MiB of S", trace_stored, replay, 0},
    {"replay, 1 MiB of Z", trace_reset, replay, 0},
    {"replay, 1 MiB of L", trace_lists, replay, 0},
    {"replay, 1 MiB of empty lines", trace_empty_lines, replay, 0},
    {"replay, a line of 1 MiB", trace_long_line, replay, 0},
    {"replay, 1 MiB without a newline", trace_no_line, replay, 0},
    {"replay_end, 1 MiB", trace_no_line, replay_end, 0},
    {"dtai, 256 leaps", ask_day, ask_dtai, 0},
    {"dtai, malformed", malformed, ask_dtai, 11},
    {"utc_to_tai, 256 leaps", ask_micros, utc_to_tai, 0},
    {"utc_to_tai, a last day known whole", last_micros, utc_to_tai, 0},
    {"utc_to_tai, a far day", ask_far, utc_to_tai, 10},
    {"tai_to_utc, 256 leaps", ask_tai, tai_to_utc, 0},
    {"tai_to_utc, a last day known whole", last_tai, tai_to_utc, 0},
    {"tai_to_utc, a far TAI", ask_far, tai_to_utc, 10},
    {"utc_to_uts, 256 leaps", ask_micros, utc_to_uts, 0},
    {"utc_to_uts, a last day known whole", last_micros, utc_to_uts, 0},
    {"utc_to_uts, the first day", ask_first, utc_to_uts, 0},
    {"uts_to_utc, 256 leaps", ask_nanos, uts_to_utc, 0},
    {"uts_to_utc, the first day", ask_first, uts_to_utc, 0},
    {"dtai_many, 256 leaps", ask_day, dtai_many, 0},
    {"dtai_many, malformed", malformed, dtai_many, 11},
    {"utc_to_tai_many, 256 leaps", ask_micros, utc_to_tai_many, 0},
    {"utc_to_tai_many, a last day known whole", last_micros, utc_to_tai_many, 0},
    {"utc_to_tai_many, a far day", ask_far, utc_to_tai_many, 10},
    {"tai_to_utc_many, 256 leaps", ask_tai, tai_to_utc_many, 0},
    {"tai_to_utc_many, a last day known whole", last_tai, tai_to_utc_many, 0},
    {"tai_to_utc_many, a far TAI", ask_far, tai_to_utc_many, 10},
    {"utc_to_uts_many, 256 leaps", ask_micros, utc_to_uts_many, 0},
    {"utc_to_uts_many, a last day known whole", last_micros, utc_to_uts_many, 0},
    {"utc_to_uts_many, the first day", ask_first, utc_to_uts_many, 0},
    {"uts_to_utc_many, 256 leaps", ask_nanos, uts_to_utc_many, 0},
    {"uts_to_utc_many, the first day", ask_first, uts_to_utc_many, 0},
};

static void must(int error, const char *what)
{
    if (error != 0) {
        printf("FAILED stack: %s: %s\n", what, strerror(error));
        exit(2);
    }
}

static void *body(void *arg)
{
    (*(void (**)(void))arg)();
    return NULL;
}

static void run(pthread_attr_t *attr, void (*call)(void))
{
    pthread_t thread;
    must(pthread_create(&thread, attr, body, &call), "pthread_create");
    must(pthread_join(thread, NULL), "pthread_join");
}

/* The stack that a thread uses which makes this call. */
static size_t used(void (*call)(void))
{
    static uint8_t *stack;
    size_t i;
    pthread_attr_t attr;
    if (stack == NULL) {
        stack = mmap(NULL, PAINTED, PROT_READ | PROT_WRITE, MAP_PRIVATE | MAP_ANONYMOUS, -1, 0);
        must(stack == MAP_FAILED, "mmap");
    }
    memset(stack, PAINT, PAINTED);
    must(pthread_attr_init(&attr), "pthread_attr_init");
    must(pthread_attr_setstack(&attr, stack, PAINTED), "pthread_attr_setstack");
    run(&attr, call);
    must(pthread_attr_destroy(&attr), "pthread_attr_destroy");
    for (i = 0; i < PAINTED && stack[i] == PAINT;)
        i++;
    return PAINTED - i;
}

/* Runs the call in a child's small thread; the child's exit status. */
static int small(void (*call)(void))
{
    int status;
    pid_t child;
    fflush(stdout);
    child = fork();
    must(child < 0, "fork");
    if (child == 0) {
        pthread_attr_t attr;
        must(pthread_attr_init(&attr), "pthread_attr_init");
        must(pthread_attr_setstacksize(&attr, (size_t)sysconf(_SC_THREAD_STACK_MIN) + LIMIT),
             "pthread_attr_setstacksize");
        run(&attr, call);
        _exit(0);
    }
    must(waitpid(child, &status, 0) != child, "waitpid");
    return status;
}

/* Whether a case returns its number and keeps to the limit, both ways. */
static int holds(size_t own, size_t which)
{
    const char *name = cases[which].name;
    size_t bytes;
    int status;
    cases[which].prepare();
    bytes = used(cases[which].call);
    bytes = bytes > own ? bytes - own : 0;
    if (number != cases[which].number) {
        printf("FAILED stack: %s returned %d, not %d\n", name, number, cases[which].number);
        return 0;
    }
    if (bytes > LIMIT) {
        printf("FAILED stack: %s used %lu bytes\n", name, (unsigned long)bytes);
        return 0;
    }
    status = small(cases[which].call);
    if (status != 0) {
        printf("FAILED stack: %s in a small thread: %s\n", name,
               WIFSIGNALED(status) ? strsignal(WTERMSIG(status)) : "failed");
        return 0;
    }
    printf("ok stack: %-36s %6lu bytes\n", name, (unsigned long)bytes);
    return 1;
}

int main(void)
{
    size_t i, own = used(nothing);
    int failed = 0;
    for (i = 0; i < sizeof cases / sizeof *cases; i++)
        failed |= !holds(own, i);
    return failed;
}
