/* What the tests of leap.h share.
 *
 * Each input and output ends right before a page that can't be touched, so a
 * call that reads or writes too far is killed; what lies before an output, and
 * every input, must be as it was. */
#ifndef LENT_H
#define LENT_H

#ifndef _DEFAULT_SOURCE
#define _DEFAULT_SOURCE
#endif
#include <stdio.h>
#include <stdlib.h>
#include <string.h>
#include <sys/mman.h>
#include <unistd.h>

#include "days.h"
#include "leap.h"

#define U(n) UINT64_C(n)

static int failed;
static const char *group;

/* The checks up to `end` are of this group. */
static inline void begin(const char *name) { group = name; }

static inline void fail(const char *call, const char *what, uint64_t got, uint64_t want)
{
    printf("FAILED %s: %s: %s is %llu, not %llu\n", group, call, what,
           (unsigned long long)got, (unsigned long long)want);
    failed = 1;
}

static inline void same(const char *call, const char *what, uint64_t got, uint64_t want)
{
    if (got != want)
        fail(call, what, got, want);
}

static inline void end(void)
{
    if (failed)
        exit(1);
    printf("ok %s\n", group);
}

/* ---- memory that ends before a page that can't be touched ---- */

enum { AREA = 8192, FILL = 0xa5 };

static inline uint8_t *new_area(void)
{
    size_t page = (size_t)sysconf(_SC_PAGESIZE);
    size_t size = (AREA + page - 1) / page * page;
    uint8_t *area = mmap(NULL, size + page, PROT_READ | PROT_WRITE,
                         MAP_PRIVATE | MAP_ANONYMOUS, -1, 0);
    if (area == MAP_FAILED || mprotect(area + size, page, PROT_NONE) != 0) {
        perror("mmap");
        exit(2);
    }
    return area + size - AREA;
}

/* The last `size` bytes of an area, which is filled. */
static inline void *last(uint8_t *area, size_t size)
{
    memset(area, FILL, AREA);
    return area + AREA - size;
}

static inline void *last_copy(uint8_t *area, const void *from, size_t size)
{
    void *to = last(area, size);
    if (size > 0)
        memcpy(to, from, size);
    return to;
}

/* The area before its last `size` bytes is as it was filled. */
static inline void untouched(const char *call, const uint8_t *area, size_t size)
{
    size_t i;
    for (i = 0; i < AREA - size; i++)
        if (area[i] != FILL) {
            fail(call, "a byte before the output", area[i], FILL);
            return;
        }
}

/* Areas for the input, for a schedule or list put out, and for numbers. */
static uint8_t *in_area, *out_area, *one_area, *two_area;

static inline void new_areas(void)
{
    in_area = new_area();
    out_area = new_area();
    one_area = new_area();
    two_area = new_area();
}

/* ---- schedules ---- */

static inline leap_schedule schedule(uint32_t count, const leap_second *leaps, uint32_t expiry_mjd)
{
    leap_schedule s;
    memset(&s, 0, sizeof s);
    if (count > 0)
        memcpy(s.leap, leaps, count * sizeof *leaps);
    s.count = count;
    s.expiry_mjd = expiry_mjd;
    return s;
}

static const leap_second PLUS_6 = {6, 0}, MINUS_6 = {6, 1};

static inline leap_schedule list_plus(void) { return schedule(1, &PLUS_6, MONTH_11); } /* 6+5? */
static inline leap_schedule list_n(void) { return schedule(1, &MINUS_6, MONTH_11); }   /* 6-5? */

static inline leap_schedule list_b(void)
{
    static const uint32_t gap[27] = {6, 6, 12, 12, 12, 12, 12, 12, 12, 18, 12, 12, 24, 30,
                                     24, 12, 18, 12, 12, 18, 18, 18, 84, 36, 42, 36, 18};
    leap_second leap[27];
    uint32_t i, month = 0;
    for (i = 0; i < 27; i++) {
        leap[i].month = month += gap[i];
        leap[i].negative = 0;
    }
    return schedule(27, leap, MONTH_599);
}

/* `wide` gaps of that many months and then gaps of 1 up to 256 leaps and the
 * expiry. */
static inline leap_schedule list_of_gaps(uint32_t wide, uint32_t months)
{
    leap_schedule s;
    uint32_t i, month = 0;
    memset(&s, 0, sizeof s);
    for (i = 0; i < 256; i++)
        s.leap[i].month = month += i < wide ? months : 1;
    s.count = 256;
    s.expiry_mjd = first_day(month + 1);
    return s;
}

#endif
