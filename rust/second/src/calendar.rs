//! The civil calendar from 1 January 1972 to 1 January 2172, walked one day at
//! a time. A day's place in the walk is its MJD less 41317.

use std::sync::OnceLock;

/// MJD of 1 January 1972.
pub const FIRST_MJD: u64 = 41_317;

/// The last month number: January 2172.
pub const LAST_MONTH: u32 = 2_400;

/// A civil date with its month number (0 is January 1972).
#[derive(Clone, Copy, Debug, PartialEq, Eq)]
pub struct Date {
    pub year: u16,
    pub month: u8,
    pub day: u8,
    pub number: u32,
}

pub struct Calendar {
    /// Every day from 1972-01-01 through 2172-01-01.
    pub days: Vec<Date>,
    /// Days counted in each of the months 0 to 2399.
    pub month_days: Vec<u32>,
}

fn is_leap_year(year: u16) -> bool {
    match (year % 4, year % 100, year % 400) {
        (_, _, 0) => true,
        (_, 0, _) => false,
        (0, _, _) => true,
        _ => false,
    }
}

fn last_day_of(year: u16, month: u8) -> u8 {
    match month {
        4 | 6 | 9 | 11 => 30,
        2 if is_leap_year(year) => 29,
        2 => 28,
        _ => 31,
    }
}

fn tomorrow(d: Date) -> Date {
    if d.day < last_day_of(d.year, d.month) {
        return Date {
            day: d.day + 1,
            ..d
        };
    }
    let (year, month) = if d.month == 12 {
        (d.year + 1, 1)
    } else {
        (d.year, d.month + 1)
    };
    Date {
        year,
        month,
        day: 1,
        number: d.number + 1,
    }
}

/// The walked calendar, made at the first use.
pub fn calendar() -> &'static Calendar {
    static WALKED: OnceLock<Calendar> = OnceLock::new();
    WALKED.get_or_init(|| {
        let mut days = Vec::new();
        let mut month_days = vec![0; LAST_MONTH as usize];
        let mut today = Date {
            year: 1972,
            month: 1,
            day: 1,
            number: 0,
        };
        while today.number < LAST_MONTH {
            days.push(today);
            month_days[today.number as usize] += 1;
            today = tomorrow(today);
        }
        days.push(today);
        Calendar { days, month_days }
    })
}

impl Calendar {
    /// The walk's place of the first day of a month, found by search.
    pub fn first_day(&self, number: u32) -> usize {
        self.days.partition_point(|d| d.number < number)
    }
}

/// The MJD of a month's first day.
pub fn month_start(number: u32) -> u64 {
    FIRST_MJD + calendar().first_day(number) as u64
}

#[cfg(test)]
mod tests {
    use super::*;

    #[test]
    fn ends_of_the_walk() {
        let c = calendar();
        assert_eq!(month_start(0), 41_317);
        assert_eq!(month_start(2_400), 114_366);
        assert_eq!(c.days.len() as u64, 114_366 - 41_317 + 1);
        let last = c.days.last().unwrap();
        assert_eq!(
            (last.year, last.month, last.day, last.number),
            (2172, 1, 1, 2400)
        );
        assert_eq!(c.month_days.iter().sum::<u32>() as usize + 1, c.days.len());
    }

    #[test]
    fn februaries() {
        let c = calendar();
        let february = |year: usize| c.month_days[(year - 1972) * 12 + 1];
        assert_eq!(february(1972), 29);
        assert_eq!(february(1973), 28);
        assert_eq!(february(2000), 29);
        assert_eq!(february(2100), 28);
        assert_eq!(february(2104), 29);
    }
}
