//! The schedule as a caller hands it in (`Raw`) and as this program keeps it:
//! a strip with one cell for each month that is known, and the day on which that
//! ends (request 10/14 of `02-change-requests.md`).

use crate::calendar::{calendar, FIRST_MJD};
use crate::refusal::NO_GAP;

pub const MAX_LEAPS: usize = 256;
pub const MAX_GAP: u32 = 999;

/// 514 words that a caller may fill in any way.
#[derive(Clone, Debug, PartialEq, Eq)]
pub struct Raw {
    /// Month and `negative` word of each place.
    pub words: [(u32, u32); MAX_LEAPS],
    pub count: u32,
    pub expiry_mjd: u32,
}

impl Raw {
    /// No leaps, expiry 0: what a refusing reader returns.
    pub const fn blank() -> Raw {
        Raw {
            words: [(0, 0); MAX_LEAPS],
            count: 0,
            expiry_mjd: 0,
        }
    }

    /// From month0, negative0, month1, negative1, .., count, expiry MJD.
    pub fn from_words(flat: &[u32; 514]) -> Raw {
        let mut raw = Raw::blank();
        for (place, pair) in raw.words.iter_mut().zip(flat.chunks_exact(2)) {
            *place = (pair[0], pair[1]);
        }
        raw.count = flat[512];
        raw.expiry_mjd = flat[513];
        raw
    }

    /// The words in the order that `from_words` takes.
    pub fn to_words(&self) -> [u32; 514] {
        let mut flat = [0; 514];
        for (pair, place) in flat.chunks_exact_mut(2).zip(self.words.iter()) {
            pair[0] = place.0;
            pair[1] = place.1;
        }
        flat[512] = self.count;
        flat[513] = self.expiry_mjd;
        flat
    }
}

/// What a reader returns.
#[derive(Clone, Debug, PartialEq, Eq)]
pub struct Reading {
    pub number: u8,
    /// Where a refused reading stopped (a byte, or a nybble in a nybble list).
    pub place: u64,
    pub schedule: Raw,
}

impl Reading {
    pub fn refused(number: u8, place: u64) -> Reading {
        Reading {
            number,
            place,
            schedule: Raw::blank(),
        }
    }

    pub fn accepted(schedule: &Schedule) -> Reading {
        Reading {
            number: crate::refusal::ACCEPTED,
            place: 0,
            schedule: schedule.to_raw(),
        }
    }
}

/// What ends a gap.
#[derive(Clone, Copy, Debug, PartialEq, Eq)]
pub enum Mark {
    Positive,
    Negative,
    Expiry,
}

/// A well-formed schedule as a strip of months: cell m is the leap at the start
/// of month m (+1, -1 or 0), and the strip has every month that starts before the
/// expiry day.
#[derive(Clone, Debug, PartialEq, Eq)]
pub struct Schedule {
    strip: Vec<i8>,
    /// The expiry day's place in the calendar's walk.
    expiry: usize,
}

impl Schedule {
    /// The strip of a raw schedule, if that is well formed.
    pub fn from_raw(raw: &Raw) -> Option<Schedule> {
        let used = usize::try_from(raw.count).ok()?;
        let leaps = raw.words.get(..used)?;
        let unused = raw.words.get(used..)?;
        if unused.iter().any(|&place| place != (0, 0)) {
            return None;
        }
        let mut last = 0;
        for &(month, _) in leaps {
            let gap = i64::from(month) - i64::from(last);
            if gap < 1 || gap > i64::from(MAX_GAP) {
                return None;
            }
            last = month;
        }
        // The expiry is a day of the walk, whose last is 114366, later than the first
        // day of the last leap's month, and at most 999 months after it by number.
        let walk = calendar();
        let expiry = u64::from(raw.expiry_mjd).checked_sub(FIRST_MJD)? as usize;
        let month = walk.days.get(expiry)?.number;
        if expiry <= walk.first_day(last) || month - last > MAX_GAP {
            return None;
        }
        let last_known = walk.days[expiry - 1].number;
        let mut strip = vec![0; last_known as usize + 1];
        for &(month, negative) in leaps {
            strip[month as usize] = match negative {
                0 => 1,
                1 => -1,
                _ => return None,
            };
        }
        Some(Schedule { strip, expiry })
    }

    pub fn to_raw(&self) -> Raw {
        let mut raw = Raw::blank();
        for (month, &leap) in self.strip.iter().enumerate() {
            if leap != 0 {
                raw.words[raw.count as usize] = (month as u32, u32::from(leap < 0));
                raw.count += 1;
            }
        }
        raw.expiry_mjd = self.expiry_mjd() as u32;
        raw
    }

    /// The expiry day's place in the calendar's walk.
    pub fn expiry(&self) -> usize {
        self.expiry
    }

    pub fn expiry_mjd(&self) -> u64 {
        FIRST_MJD + self.expiry as u64
    }

    /// The leap at the start of each month that starts before the expiry day.
    pub fn strip(&self) -> &[i8] {
        &self.strip
    }

    /// Every gap with the mark that ends it, the expiry last, which is rounded
    /// down to its month; 17 if that leaves a gap of 0.
    pub fn gaps(&self) -> Result<Vec<(u32, Mark)>, u8> {
        let mut gaps = Vec::new();
        let mut last = 0;
        for (month, &leap) in (0..).zip(&self.strip) {
            let mark = match leap {
                0 => continue,
                1 => Mark::Positive,
                _ => Mark::Negative,
            };
            gaps.push((month - last, mark));
            last = month;
        }
        let month = calendar().days[self.expiry].number;
        if month == last {
            return Err(NO_GAP);
        }
        gaps.push((month - last, Mark::Expiry));
        Ok(gaps)
    }
}

/// A strip being laid down by a reader, gap by gap. The reader has checked
/// each gap against its own limits before it lays it.
#[derive(Default)]
pub struct Laying {
    strip: Vec<i8>,
    months: usize,
    leaps: usize,
}

impl Laying {
    pub fn months(&self) -> u32 {
        self.months as u32
    }

    pub fn leaps(&self) -> usize {
        self.leaps
    }

    /// A gap with a leap at its end.
    pub fn leap(&mut self, gap: u32, leap: i8) {
        self.months += gap as usize;
        self.strip.resize(self.months, 0);
        self.strip.push(leap);
        self.leaps += 1;
    }

    /// The last gap: the expiry is the first day of the month that it ends with.
    pub fn expire(mut self, gap: u32) -> Schedule {
        self.months += gap as usize;
        self.strip.resize(self.months, 0);
        Schedule {
            strip: self.strip,
            expiry: calendar().first_day(self.months as u32),
        }
    }
}

pub fn well_formed(raw: &Raw) -> bool {
    Schedule::from_raw(raw).is_some()
}
