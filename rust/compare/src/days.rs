//! Months and days.

use std::sync::OnceLock;

use second::calendar;

pub const FIRST_DAY: u32 = 41_317;
pub const LAST_MONTH: u32 = 2_400;
/// Month 2400's first day, the last that may be an expiry.
pub const LAST_EXPIRY: u32 = 114_366;

fn starts() -> &'static [u32] {
    static STARTS: OnceLock<Vec<u32>> = OnceLock::new();
    STARTS.get_or_init(|| {
        let months = 0..=LAST_MONTH;
        months.map(|m| calendar::month_start(m) as u32).collect()
    })
}

/// The MJD of a month's first day; the last month's for any after it.
pub fn month_start(month: u32) -> u32 {
    starts()[month.min(LAST_MONTH) as usize]
}

/// How many months start before a day.
pub fn months_before(mjd: u32) -> u32 {
    starts().partition_point(|&start| start < mjd) as u32
}

/// The month that a day lies in; the first or the last for a day that is outside.
pub fn month_of(mjd: u32) -> u32 {
    months_before(mjd.saturating_add(1)).saturating_sub(1)
}

/// The last day of a month; of the last month its first.
pub fn month_end(month: u32) -> u32 {
    match month < LAST_MONTH {
        true => month_start(month + 1) - 1,
        false => LAST_EXPIRY,
    }
}

pub fn is_first(mjd: u32) -> bool {
    month_start(month_of(mjd)) == mjd
}

/// The month whose first day is nearest.
pub fn nearest_month(mjd: u64) -> u32 {
    let day = u32::try_from(mjd).unwrap_or(u32::MAX);
    let month = month_of(day);
    match day.abs_diff(month_start(month)) <= day.abs_diff(month_start(month + 1)) {
        true => month,
        false => LAST_MONTH.min(month + 1),
    }
}

/// How many days a day moves if it goes back so many months, and stays as far from
/// the nearest month's first day.
pub fn days_back(mjd: u64, months: u32) -> u32 {
    let month = nearest_month(mjd);
    month_start(month) - month_start(month.saturating_sub(months))
}

#[cfg(test)]
mod tests {
    use super::*;

    #[test]
    fn days_and_months() {
        for (mjd, before, month, end) in [
            (0, 0, 0, 41_347),
            (41_317, 0, 0, 41_347),
            (41_318, 1, 0, 41_347),
            (41_347, 1, 0, 41_347),
            (41_348, 1, 1, 41_376),
            (41_349, 2, 1, 41_376),
            (114_365, 2_400, 2_399, 114_365),
            (114_366, 2_400, 2_400, 114_366),
            (114_367, 2_401, 2_400, 114_366),
            (u32::MAX, 2_401, 2_400, 114_366),
        ] {
            assert_eq!(months_before(mjd), before, "{mjd}");
            assert_eq!(month_of(mjd), month, "{mjd}");
            assert_eq!(month_end(month), end, "{mjd}");
            let first = [41_317, 41_348, 114_366].contains(&mjd);
            assert_eq!(is_first(mjd), first, "{mjd}");
        }
    }

    #[test]
    fn days_go_back_by_months() {
        // February 1972 has 29 days; its second and its last day go to January.
        assert_eq!(days_back(41_349, 1), 31);
        assert_eq!(days_back(41_376, 1), 29);
        assert_eq!(days_back(41_376, 0), 0);
        assert_eq!(days_back(41_350, 5), 31);
        assert_eq!(days_back(u64::MAX, 2_400), 114_366 - 41_317);
        assert_eq!(nearest_month(u64::MAX), 2_400);
        assert_eq!(nearest_month(0), 0);
    }
}
