/* expiry LIST EXPIRY MJD MICROS: smoothed time under the leaps of a text list
 * that expires on the day EXPIRY, and under the text list that is written of it,
 * which expires on the first of that day's month. docs/CLASS.md uses it. */
#include <inttypes.h>
#include <stdio.h>
#include <stdlib.h>
#include <string.h>

#include "leap.h"

static void print_uts(const char *name, const leap_schedule *list, uint64_t mjd, uint64_t micros)
{
    uint64_t nanos;
    uint8_t number = leap_utc_to_uts(list, mjd, micros, &nanos);
    if (number == LEAP_OK)
        printf("%s %" PRIu64 "\n", name, nanos);
    else
        printf("%s !%d\n", name, (int)number);
}

int main(int argc, char **argv)
{
    leap_schedule list, written;
    uint8_t text[LEAP_TEXT_ROOM], number;
    uint64_t place, length, mjd, micros;
    if (argc != 5 || leap_read_text((const uint8_t *)argv[1], strlen(argv[1]), &list, &place) != LEAP_OK) {
        fprintf(stderr, "expected: expiry LIST EXPIRY MJD MICROS\n");
        return 1;
    }
    list.expiry_mjd = (uint32_t)strtoul(argv[2], NULL, 10);
    mjd = strtoull(argv[3], NULL, 10);
    micros = strtoull(argv[4], NULL, 10);
    print_uts("to the day:", &list, mjd, micros);
    number = leap_write_text(&list, text, sizeof text, &length);
    if (number == LEAP_OK && leap_read_text(text, length, &written, &place) == LEAP_OK)
        print_uts("as text:   ", &written, mjd, micros);
    else
        printf("as text:    not written, !%d\n", (int)number);
    return 0;
}
