//! UTS by document 002's own algorithm, in whole nanoseconds.

const MS: i128 = 1_000_000;
const S: i128 = 1_000 * MS;

const fn hms(hours: i128, minutes: i128, seconds: i128) -> i128 {
    (3_600 * hours + 60 * minutes + seconds) * S
}

/// UTS nanoseconds of the day for UTC microseconds of the day; the warning is
/// +1, -1 or 0 for the leap second announced for the end of that day.
pub fn uts(micros: u64, leap_warning: i8) -> i128 {
    let warning = i128::from(leap_warning);
    let midnight = 0;
    let utc = midnight + i128::from(micros) * 1_000;
    if utc - midnight >= hms(23, 59, 60) {
        // the extra second of a longer day
        midnight + hms(23, 59, 59) + MS + (utc - midnight - hms(23, 59, 60)) * 999 / 1_000
    } else {
        let r = midnight + hms(24, 0, 0) + warning * S - utc;
        if r < hms(0, 16, 40) {
            utc - (hms(0, 16, 40) - r) * warning / 1_000
        } else {
            utc
        }
    }
}

/// The greatest count below `end` whose UTS is not above `nanos`, by halving.
/// Midnight's UTS is 0, so there always is one.
pub fn greatest_utc(nanos: u64, leap_warning: i8, end: u64) -> u64 {
    let (mut fits, mut over) = (0, end);
    while over - fits > 1 {
        let middle = fits + (over - fits) / 2;
        if uts(middle, leap_warning) <= i128::from(nanos) {
            fits = middle;
        } else {
            over = middle;
        }
    }
    fits
}
