//! The five questions. `Prepared` keeps a book with one entry a month, made by
//! letting time run from 1972-01-01 through the schedule.

use crate::calendar::{calendar, Calendar, FIRST_MJD};
use crate::refusal::*;
use crate::schedule::{Raw, Schedule};
use crate::smooth;

const SECOND: i128 = 1_000_000;
const DAY: i128 = 86_400 * SECOND;

/// No UTC day has this many microseconds.
const LONGER_THAN_ANY_DAY: u64 = 86_401_000_000;
/// UTS nanoseconds in a day.
const UTS_DAY: u64 = 86_400_000_000_000;
/// On a last day of unknown length TAI is given below this ..
const LAST_DAY_TAI_END: u64 = 86_399_000_000;
/// .. and UTS below this (microseconds, and nanoseconds coming back).
const LAST_DAY_UTS_END: u64 = 85_399_000_000;
const LAST_DAY_UTS_END_NANOS: u64 = 85_399_000_000_000;

/// TAI of 1972-01-01 00:00:00 UTC, which is also the least TAI taken.
const TAI_AT_START: u64 = 10_000_000;

struct Month {
    /// TAI microseconds at 00:00:00 UTC on the first of the month.
    start: i128,
    dtai: i32,
    /// The leap at its end; unknown for the last month.
    leap_at_end: Option<i8>,
}

/// A schedule made ready for many questions.
pub struct Prepared {
    calendar: &'static Calendar,
    book: Vec<Month>,
    /// Days before the expiry.
    days: usize,
}

/// What is known of one day.
struct Day {
    midnight: i128,
    dtai: i32,
    /// The leap at its end; none if unknown, as on the last day before an expiry on
    /// the first of a month.
    leap: Option<i8>,
}

impl Day {
    fn length(&self) -> Option<i128> {
        self.leap.map(|leap| DAY + i128::from(leap) * SECOND)
    }
}

impl Prepared {
    /// None if the schedule isn't well formed.
    pub fn new(raw: &Raw) -> Option<Prepared> {
        Schedule::from_raw(raw).map(|s| Prepared::of(&s))
    }

    pub fn of(schedule: &Schedule) -> Prepared {
        let calendar = calendar();
        let strip = schedule.strip();
        let mut book = Vec::with_capacity(strip.len());
        let mut start = i128::from(TAI_AT_START);
        let mut dtai = 10;
        for (month, &length) in calendar.month_days.iter().enumerate().take(strip.len()) {
            let leap_at_end = strip.get(month + 1).copied();
            book.push(Month {
                start,
                dtai,
                leap_at_end,
            });
            let leap = leap_at_end.unwrap_or(0);
            start += i128::from(length) * DAY + i128::from(leap) * SECOND;
            dtai += i32::from(leap);
        }
        Prepared {
            calendar,
            book,
            days: schedule.expiry(),
        }
    }

    /// The day at a place of the calendar's walk, which lies before the expiry.
    fn day(&self, at: usize) -> Day {
        let date = self.calendar.days[at];
        let month = &self.book[date.number as usize];
        let ends_month = self.calendar.days[at + 1].day == 1;
        Day {
            midnight: month.start + i128::from(date.day - 1) * DAY,
            dtai: month.dtai,
            leap: if ends_month {
                month.leap_at_end
            } else {
                Some(0)
            },
        }
    }

    /// The place of a day from 1972 on (else 8), which may be past the expiry.
    fn since_1972(mjd: u64) -> Result<u64, u8> {
        mjd.checked_sub(FIRST_MJD).ok_or(BEFORE_1972)
    }

    /// The day, if its DTAI is known (else 10).
    fn known(&self, place: u64) -> Result<Day, u8> {
        match usize::try_from(place) {
            Ok(at) if at < self.days => Ok(self.day(at)),
            _ => Err(NOT_KNOWN),
        }
    }

    /// The day of a UTC instant, refusing in the order 8, 9, 10, 9. An instant
    /// on a day of unknown length must lie below `last_day_end`.
    fn instant(&self, mjd: u64, micros: u64, last_day_end: u64) -> Result<Day, u8> {
        let place = Self::since_1972(mjd)?;
        if micros >= LONGER_THAN_ANY_DAY {
            return Err(NO_SUCH_INSTANT);
        }
        let day = self.known(place)?;
        match day.length() {
            None if micros >= last_day_end => Err(NOT_KNOWN),
            Some(length) if i128::from(micros) >= length => Err(NO_SUCH_INSTANT),
            _ => Ok(day),
        }
    }

    fn try_dtai(&self, mjd: u64) -> Result<i32, u8> {
        Ok(self.known(Self::since_1972(mjd)?)?.dtai)
    }

    fn try_utc_to_tai(&self, mjd: u64, micros: u64) -> Result<u64, u8> {
        let day = self.instant(mjd, micros, LAST_DAY_TAI_END)?;
        Ok((day.midnight + i128::from(micros)) as u64)
    }

    fn try_tai_to_utc(&self, tai: u64) -> Result<(u64, u64), u8> {
        if tai < TAI_AT_START {
            return Err(BEFORE_1972);
        }
        // The last known day that starts at or before this TAI, by halving.
        let tai = i128::from(tai);
        let (mut started, mut later) = (0, self.days);
        while later - started > 1 {
            let middle = started + (later - started) / 2;
            if self.day(middle).midnight <= tai {
                started = middle;
            } else {
                later = middle;
            }
        }
        let day = self.day(started);
        let micros = tai - day.midnight;
        // Only the last day's end can be reached.
        if micros >= day.length().unwrap_or(LAST_DAY_TAI_END.into()) {
            return Err(NOT_KNOWN);
        }
        Ok((FIRST_MJD + started as u64, micros as u64))
    }

    fn try_utc_to_uts(&self, mjd: u64, micros: u64) -> Result<u64, u8> {
        let day = self.instant(mjd, micros, LAST_DAY_UTS_END)?;
        // Where the leap is unknown, the last 1000 seconds have been refused.
        Ok(smooth::uts(micros, day.leap.unwrap_or(0)) as u64)
    }

    fn try_uts_to_utc(&self, mjd: u64, nanos: u64) -> Result<u64, u8> {
        let place = Self::since_1972(mjd)?;
        if nanos >= UTS_DAY {
            return Err(NO_SUCH_INSTANT);
        }
        let day = self.known(place)?;
        match day.leap {
            Some(leap) => {
                let length = (DAY + i128::from(leap) * SECOND) as u64;
                Ok(smooth::greatest_utc(nanos, leap, length))
            }
            None if nanos >= LAST_DAY_UTS_END_NANOS => Err(NOT_KNOWN),
            None => Ok(smooth::greatest_utc(nanos, 0, LAST_DAY_UTS_END)),
        }
    }

    /// TAI - UTC in seconds on a date.
    pub fn dtai(&self, mjd: u64) -> (u8, i32) {
        match self.try_dtai(mjd) {
            Ok(dtai) => (ACCEPTED, dtai),
            Err(number) => (number, 0),
        }
    }

    /// TAI microseconds of a UTC instant.
    pub fn utc_to_tai(&self, mjd: u64, micros: u64) -> (u8, u64) {
        one(self.try_utc_to_tai(mjd, micros))
    }

    /// MJD and microseconds of the UTC instant with this TAI.
    pub fn tai_to_utc(&self, tai: u64) -> (u8, u64, u64) {
        match self.try_tai_to_utc(tai) {
            Ok((mjd, micros)) => (ACCEPTED, mjd, micros),
            Err(number) => (number, 0, 0),
        }
    }

    /// UTS nanoseconds of a UTC instant.
    pub fn utc_to_uts(&self, mjd: u64, micros: u64) -> (u8, u64) {
        one(self.try_utc_to_uts(mjd, micros))
    }

    /// The greatest UTC microseconds of the day whose UTS is not above.
    pub fn uts_to_utc(&self, mjd: u64, nanos: u64) -> (u8, u64) {
        one(self.try_uts_to_utc(mjd, nanos))
    }

    /// First day, last day (places of the calendar's walk) and DTAI of every
    /// stretch before the expiry.
    pub fn stretches(&self) -> Vec<(usize, usize, i32)> {
        let mut stretches: Vec<(usize, usize, i32)> = Vec::new();
        let mut first = 0;
        for (month, &length) in self.book.iter().zip(&self.calendar.month_days) {
            let last = self.days.min(first + length as usize) - 1;
            match stretches.last_mut() {
                Some(stretch) if stretch.2 == month.dtai => stretch.1 = last,
                _ => stretches.push((first, last, month.dtai)),
            }
            first = last + 1;
        }
        stretches
    }

    /// The expiry day (a place of the calendar's walk).
    pub fn unknown_from(&self) -> usize {
        self.days
    }
}

fn one(result: Result<u64, u8>) -> (u8, u64) {
    match result {
        Ok(value) => (ACCEPTED, value),
        Err(number) => (number, 0),
    }
}

pub fn dtai(raw: &Raw, mjd: u64) -> (u8, i32) {
    Prepared::new(raw).map_or((NOT_WELL_FORMED, 0), |p| p.dtai(mjd))
}

pub fn utc_to_tai(raw: &Raw, mjd: u64, micros: u64) -> (u8, u64) {
    Prepared::new(raw).map_or((NOT_WELL_FORMED, 0), |p| p.utc_to_tai(mjd, micros))
}

pub fn tai_to_utc(raw: &Raw, tai: u64) -> (u8, u64, u64) {
    Prepared::new(raw).map_or((NOT_WELL_FORMED, 0, 0), |p| p.tai_to_utc(tai))
}

pub fn utc_to_uts(raw: &Raw, mjd: u64, micros: u64) -> (u8, u64) {
    Prepared::new(raw).map_or((NOT_WELL_FORMED, 0), |p| p.utc_to_uts(mjd, micros))
}

pub fn uts_to_utc(raw: &Raw, mjd: u64, nanos: u64) -> (u8, u64) {
    Prepared::new(raw).map_or((NOT_WELL_FORMED, 0), |p| p.uts_to_utc(mjd, nanos))
}
