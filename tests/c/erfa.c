/* DTAI by ERFA's eraDat against leap_dtai, on every day from 1972-01-01 that
 * list B of 01 knows: MJD 41317 to 59548. */
#include <erfa.h>
#include <stdio.h>

#include "leap.h"

int main(void)
{
    static const uint8_t B[] = {0x00, 0x11, 0x11, 0x11, 0x12, 0x11, 0x34, 0x31,
                                0x21, 0x12, 0x22, 0x9D, 0x56, 0x52, 0x87, 0xFA};
    leap_schedule s;
    uint64_t place, mjd;
    int32_t dtai;
    if (leap_read_nybbles(B, sizeof B, &s, &place) != LEAP_OK) {
        printf("FAILED erfa: list B does not read\n");
        return 1;
    }
    for (mjd = 41317; mjd <= 59548; mjd++) {
        int year, month, day, bad;
        double fraction, by_erfa = 0;
        uint8_t number = leap_dtai(&s, mjd, &dtai);
        bad = eraJd2cal(2400000.5, (double)mjd, &year, &month, &day, &fraction);
        if (bad == 0)
            bad = eraDat(year, month, day, 0.0, &by_erfa);
        if (number != LEAP_OK || bad != 0 || (double)dtai != by_erfa) {
            printf("FAILED erfa: on MJD %d leap_dtai gives %d (number %d), eraDat %g (status %d)\n",
                   (int)mjd, dtai, number, by_erfa, bad);
            return 1;
        }
    }
    if (leap_dtai(&s, mjd, &dtai) != LEAP_NOT_KNOWN) {
        printf("FAILED erfa: list B knows MJD %d\n", (int)mjd);
        return 1;
    }
    printf("ok erfa: DTAI on all 18232 days of list B\n");
    return 0;
}
